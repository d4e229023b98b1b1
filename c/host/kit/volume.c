/* What a filter asks of a volume. */
#include "core/client.h"
#include "filesystem/fileobject.h"
#include "manager/instance.h"
#include "manager/mount.h"
#include "manager/reference.h"

#include <stdlib.h>

NTSTATUS FltGetVolumeProperties(PFLT_VOLUME Volume, PFLT_VOLUME_PROPERTIES VolumeProperties, ULONG VolumePropertiesLength, PULONG LengthReturned)
{
    KZ_INSIDE_ALONE();
    kz_uses_bytes(VolumeProperties, VolumeProperties ? VolumePropertiesLength : 0, KZU_WRITES);
    kz_gives(LengthReturned);
    if (!kz_may_use_volume(__func__, Volume))
        return STATUS_FLT_DELETING_OBJECT;
    const KzFileSystem *system = kz_system_of(Volume->type);
    char name[64];
    snprintf(name, sizeof name, "/Device/%s", Volume->name);
    const char *texts[3] = {system->driver, system->device, name};
    ULONG needed = sizeof *VolumeProperties;
    for (int at = 0; at < 3; at++)
        needed += (ULONG)(strlen(texts[at]) * sizeof(WCHAR));
    if (LengthReturned)
        *LengthReturned = needed;
    if (!VolumeProperties || VolumePropertiesLength < sizeof *VolumeProperties)
        return STATUS_BUFFER_TOO_SMALL;
    *VolumeProperties = (FLT_VOLUME_PROPERTIES){.DeviceType = Volume->device.DeviceType,
                                                .DeviceCharacteristics = Volume->device.Characteristics | (Volume->is_read_only ? FILE_READ_ONLY_DEVICE : 0),
                                                .SectorSize = Volume->sector};
    PWSTR room = (PWSTR)(VolumeProperties + 1);
    PUNICODE_STRING names = &VolumeProperties->FileSystemDriverName;
    ULONG left = (VolumePropertiesLength - (ULONG)sizeof *VolumeProperties) / sizeof(WCHAR);
    for (int at = 0; at < 3; at++) {
        USHORT length = (USHORT)strlen(texts[at]);
        if (length > left)
            return STATUS_BUFFER_OVERFLOW;
        names[at] = (UNICODE_STRING){(USHORT)(length * sizeof(WCHAR)), (USHORT)(length * sizeof(WCHAR)), room};
        for (USHORT letter = 0; letter < length; letter++)
            *room++ = (WCHAR)(texts[at][letter] == '/' ? '\\' : texts[at][letter]);
        left -= length;
    }
    return STATUS_SUCCESS;
}

/* The volume of an object: an instance or a volume; NULL if it is neither. */
static PFLT_VOLUME volume_of(PVOID object)
{
    for (size_t at = 0; at < kz.volumes_count; at++)
        if (kz.volumes[at] == object)
            return object;
    return kz_is_instance(object) ? ((PFLT_INSTANCE)object)->volume : NULL;
}

NTSTATUS FltGetFileSystemType(PVOID FltObject, PFLT_FILESYSTEM_TYPE FileSystemType)
{
    KZ_INSIDE_ALONE();
    kz_gives(FileSystemType);
    PFLT_VOLUME volume = volume_of(FltObject);
    if (volume)
        *FileSystemType = volume->type;
    return volume ? STATUS_SUCCESS : STATUS_INVALID_PARAMETER;
}

NTSTATUS FltIsVolumeWritable(PVOID FltObject, PBOOLEAN IsWritable)
{
    KZ_INSIDE_ALONE();
    kz_gives(IsWritable);
    PFLT_VOLUME volume = volume_of(FltObject);
    if (volume)
        *IsWritable = !volume->is_read_only;
    return volume ? STATUS_SUCCESS : STATUS_INVALID_PARAMETER;
}

NTSTATUS FltIsVolumeSnapshot(PVOID FltObject, PBOOLEAN IsSnapshotVolume)
{
    KZ_INSIDE_ALONE();
    kz_gives(IsSnapshotVolume);
    PFLT_VOLUME volume = volume_of(FltObject);
    if (volume)
        *IsSnapshotVolume = volume->is_snapshot;
    return volume ? STATUS_SUCCESS : STATUS_INVALID_PARAMETER;
}

NTSTATUS FltGetDiskDeviceObject(PFLT_VOLUME Volume, PDEVICE_OBJECT *DiskDeviceObject)
{
    KZ_CALL();
    if (!kz_may_use_volume(__func__, Volume))
        return STATUS_FLT_DELETING_OBJECT;
    *DiskDeviceObject = NULL;
    if (Volume->device.DeviceType == FILE_DEVICE_NETWORK_FILE_SYSTEM)
        return STATUS_FLT_NO_DEVICE_OBJECT;
    *DiskDeviceObject = &Volume->disk;
    kz_take_object(&Volume->disk, false, __func__);
    return STATUS_SUCCESS;
}

NTSTATUS FltGetDeviceObject(PFLT_VOLUME Volume, PDEVICE_OBJECT *DeviceObject)
{
    KZ_CALL();
    if (!kz_may_use_volume(__func__, Volume))
        return STATUS_FLT_DELETING_OBJECT;
    *DeviceObject = &Volume->device;
    kz_take_object(&Volume->device, false, __func__);
    return STATUS_SUCCESS;
}

PDEVICE_OBJECT IoGetRelatedDeviceObject(PFILE_OBJECT FileObject)
{
    KZ_INSIDE_ALONE();
    KzFile *file = kz_file_with(FileObject);
    return file ? &file->volume->device : NULL;
}
