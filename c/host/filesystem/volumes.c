/* What the file system says of its volume, by the kit's classes. */
#include "filesystem/volumes.h"

#include "core/clock.h"
#include "core/module.h"
#include "core/op.h"
#include "lib/letters.h"
#include "filesystem/query.h"
#include "filesystem/record.h"
#include "filesystem/tree.h"

enum { UNITS = 65536, LETTERS = 32 };

struct KzLabelState {
    char of[8][LETTERS + 1];
};

LONGLONG kz_units(void)
{
    return UNITS;
}

static uint64_t allocation_of(const KzRecord *record)
{
    uint64_t used = 0;
    for (const KzStream *one = record->streams; one; one = one->next)
        used += one->exists ? kz_allocation_of(one) : 0;
    return used;
}

LONGLONG kz_free_units(PFLT_VOLUME volume)
{
    uint64_t used = 0;
    for (const KzRecord *one = kz_first_record(); one; one = one->next)
        if (one->volume == volume && one->exists)
            used += allocation_of(one) / volume->sector;
    return used < UNITS ? (LONGLONG)(UNITS - used) : 0;
}

static NTSTATUS query_label(PFLT_VOLUME volume, const KzRoom *room)
{
    struct {
        FILE_FS_VOLUME_INFORMATION info;
        WCHAR rest[LETTERS];
    } said = {.info = {.VolumeCreationTime.QuadPart = kz_first_time(), .VolumeSerialNumber = volume->id + 1u, .SupportsObjects = volume->type == FLT_FSTYPE_NTFS}};
    said.info.VolumeLabelLength = kz_widen(said.info.VolumeLabel, kz.label->of[volume->id]);
    return kz_put_answer(room, &said, offsetof(FILE_FS_VOLUME_INFORMATION, VolumeLabel) + said.info.VolumeLabelLength, sizeof said.info);
}

static const char *name_of(FLT_FILESYSTEM_TYPE type)
{
    return type == FLT_FSTYPE_FAT ? "FAT" : type == FLT_FSTYPE_EXFAT ? "exFAT" : type == FLT_FSTYPE_REFS ? "ReFS" : type == FLT_FSTYPE_CDFS ? "CDFS" : type == FLT_FSTYPE_UDFS ? "UDF" : "NTFS";
}

static NTSTATUS query_attributes(PFLT_VOLUME volume, const KzRoom *room)
{
    struct {
        FILE_FS_ATTRIBUTE_INFORMATION info;
        WCHAR rest[16];
    } said = {.info = {.FileSystemAttributes = FILE_CASE_PRESERVED_NAMES | FILE_CASE_SENSITIVE_SEARCH | FILE_UNICODE_ON_DISK | FILE_NAMED_STREAMS | FILE_PERSISTENT_ACLS | FILE_SUPPORTS_OPEN_BY_FILE_ID,
                       .MaximumComponentNameLength = 255}};
    said.info.FileSystemNameLength = kz_widen(said.info.FileSystemName, name_of(volume->type));
    return kz_put_answer(room, &said, offsetof(FILE_FS_ATTRIBUTE_INFORMATION, FileSystemName) + said.info.FileSystemNameLength, sizeof said.info);
}

#define PUT(value) kz_put_answer(room, &(value), sizeof(value), sizeof(value))

static NTSTATUS query(PFLT_VOLUME volume, int class, const KzRoom *room)
{
    LARGE_INTEGER all = {.QuadPart = UNITS}, left = {.QuadPart = kz_free_units(volume)};
    FILE_FS_SIZE_INFORMATION size = {all, left, 1, volume->sector};
    FILE_FS_FULL_SIZE_INFORMATION full = {all, left, left, 1, volume->sector};
    FILE_FS_DEVICE_INFORMATION device = {volume->disk.DeviceType, volume->disk.Characteristics | (volume->is_read_only ? FILE_READ_ONLY_DEVICE : 0)};
    switch (class) {
    case FileFsVolumeInformation:
        return query_label(volume, room);
    case FileFsSizeInformation:
        return PUT(size);
    case FileFsFullSizeInformation:
        return PUT(full);
    case FileFsDeviceInformation:
        return PUT(device);
    case FileFsAttributeInformation:
        return query_attributes(volume, room);
    default:
        return STATUS_INVALID_INFO_CLASS;
    }
}

static NTSTATUS set_label(PFLT_VOLUME volume, const FLT_PARAMETERS *now)
{
    const FILE_FS_LABEL_INFORMATION *said = now->SetVolumeInformation.VolumeBuffer;
    size_t head = offsetof(FILE_FS_LABEL_INFORMATION, VolumeLabel);
    if (now->SetVolumeInformation.FsInformationClass != FileFsLabelInformation)
        return STATUS_INVALID_INFO_CLASS;
    if (now->SetVolumeInformation.Length < head || said->VolumeLabelLength > now->SetVolumeInformation.Length - head)
        return STATUS_INFO_LENGTH_MISMATCH;
    if (said->VolumeLabelLength > LETTERS * sizeof(WCHAR))
        return STATUS_INVALID_VOLUME_LABEL;
    UNICODE_STRING label = {(USHORT)said->VolumeLabelLength, (USHORT)said->VolumeLabelLength, (PWSTR)said->VolumeLabel};
    kz_narrow(kz.label->of[volume->id], sizeof kz.label->of[0], &label);
    return STATUS_SUCCESS;
}

NTSTATUS kz_answer_volume(KzOp *op, const FLT_PARAMETERS *now)
{
    const KzRoom room = {now->QueryVolumeInformation.VolumeBuffer, now->QueryVolumeInformation.Length, &op->opaque->information};
    if (op->opaque->major == IRP_MJ_SET_VOLUME_INFORMATION)
        return set_label(op->volume, now);
    return query(op->volume, (int)now->QueryVolumeInformation.FsInformationClass, &room);
}

static const char *behind(const char *name, const char *prefix)
{
    size_t length = strlen(prefix);
    return KzStrnicmp(name, prefix, length) == 0 ? name + length : NULL;
}

void kz_volume_guid(PFLT_VOLUME volume, char *room, size_t size)
{
    snprintf(room, size, "Volume{00000000-0000-0000-0000-%012x}", volume->id + 1u);
}

PFLT_VOLUME kz_volume_named(const char *name, const char **rest)
{
    for (size_t at = 0; at < kz.volumes_count; at++) {
        char device[64], guid[64], letter[] = {(char)('C' + at), ':', 0};
        snprintf(device, sizeof device, "/Device/%s", kz.volumes[at]->name);
        kz_volume_guid(kz.volumes[at], guid, sizeof guid);
        const char *folder = behind(name, "/?" "?/") ? behind(name, "/?" "?/") : behind(name, "/DosDevices/");
        *rest = folder && behind(folder, guid) ? behind(folder, guid) : folder ? behind(folder, letter) : behind(name, device);
        if (*rest && (**rest == '/' || !**rest))
            return kz.volumes[at];
    }
    *rest = behind(name, "/SystemRoot/");
    return *rest && kz.volumes_count ? kz.volumes[0] : NULL;
}

const KzModule kz_label_module = {KZ_STATE(label)};
