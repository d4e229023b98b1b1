/* Volumes: how they come and go, and the properties that a test gives them. */
#include "manager/mount.h"

#include "cache/paging.h"
#include "core/memory.h"
#include "core/state.h"
#include "core/told.h"
#include "filesystem/disk.h"
#include "filesystem/fileobject.h"
#include "filesystem/notice.h"
#include "filesystem/oplocks.h"
#include "filesystem/waiting.h"
#include "manager/busy.h"
#include "manager/context.h"
#include "manager/instance.h"
#include "manager/perform.h"
#include "manager/reference.h"

#include <stdlib.h>

static const KzFileSystem systems[] = {
    {"NTFS", FLT_FSTYPE_NTFS, "/FileSystem/Ntfs", "/Ntfs", FILE_DEVICE_DISK_FILE_SYSTEM},
    {"FAT", FLT_FSTYPE_FAT, "/FileSystem/fastfat", "/Fat", FILE_DEVICE_DISK_FILE_SYSTEM},
    {"EXFAT", FLT_FSTYPE_EXFAT, "/FileSystem/exfat", "/ExFat", FILE_DEVICE_DISK_FILE_SYSTEM},
    {"REFS", FLT_FSTYPE_REFS, "/FileSystem/REFS", "/ReFS", FILE_DEVICE_DISK_FILE_SYSTEM},
    {"CDFS", FLT_FSTYPE_CDFS, "/FileSystem/cdfs", "/Cdfs", FILE_DEVICE_CD_ROM_FILE_SYSTEM},
    {"UDFS", FLT_FSTYPE_UDFS, "/FileSystem/udfs", "/UdfsDisk", FILE_DEVICE_DISK_FILE_SYSTEM},
    {"LANMAN", FLT_FSTYPE_LANMAN, "/FileSystem/mrxsmb", "/Device/LanmanRedirector", FILE_DEVICE_NETWORK_FILE_SYSTEM},
    {"RAW", FLT_FSTYPE_RAW, "/FileSystem/RAW", "/Device/RawDisk", FILE_DEVICE_DISK_FILE_SYSTEM},
    {"UNKNOWN", FLT_FSTYPE_UNKNOWN, "/FileSystem/unknown", "/Unknown", FILE_DEVICE_DISK_FILE_SYSTEM},
};

const KzFileSystem *kz_system_of(FLT_FILESYSTEM_TYPE type)
{
    size_t at = 0;
    while (systems[at].type != type && at + 1 < sizeof systems / sizeof systems[0])
        at++;
    return &systems[at];
}

static bool set_system(PFLT_VOLUME volume, const char *word)
{
    for (size_t at = 0; at < sizeof systems / sizeof systems[0]; at++)
        if (KzStricmp(systems[at].word, word) == 0) {
            volume->type = systems[at].type;
            volume->device.DeviceType = systems[at].kind;
            return true;
        }
    return false;
}

static bool set_sector(PFLT_VOLUME volume, const char *word)
{
    char *end;
    unsigned long size = strtoul(word, &end, 10);
    if (*end || size < 1 || size > 32768)
        return false;
    volume->sector = (USHORT)size;
    volume->disk.SectorSize = (USHORT)size;
    return true;
}

static bool set_device(PFLT_VOLUME volume, const char *word)
{
    static const struct {
        const char *word;
        DEVICE_TYPE volume, disk;
    } kinds[] = {{"disk", FILE_DEVICE_DISK_FILE_SYSTEM, FILE_DEVICE_DISK},
                 {"network", FILE_DEVICE_NETWORK_FILE_SYSTEM, FILE_DEVICE_NETWORK},
                 {"cdrom", FILE_DEVICE_CD_ROM_FILE_SYSTEM, FILE_DEVICE_CD_ROM}};
    for (size_t at = 0; at < sizeof kinds / sizeof kinds[0]; at++)
        if (strcmp(kinds[at].word, word) == 0) {
            volume->device.DeviceType = kinds[at].volume;
            volume->disk.DeviceType = kinds[at].disk;
            return true;
        }
    return false;
}

/* One property, as a word of a request; false if it is none. */
bool kz_set_volume(PFLT_VOLUME volume, const char *word)
{
    if (strncmp(word, "fs=", 3) == 0)
        return set_system(volume, word + 3);
    if (strncmp(word, "sector=", 7) == 0)
        return set_sector(volume, word + 7);
    if (strncmp(word, "device=", 7) == 0)
        return set_device(volume, word + 7);
    if (strcmp(word, "readonly") == 0)
        return volume->is_read_only = true;
    if (strcmp(word, "snapshot") == 0)
        return volume->is_snapshot = true;
    if (strcmp(word, "makesfolders") == 0)
        return volume->makes_folders = true;
    if (strcmp(word, "cached") == 0 || strcmp(word, "uncached") == 0) {
        volume->is_cached = *word == 'c';
        return true;
    }
    if (strcmp(word, "case") == 0)
        return volume->is_case_sensitive = true;
    if (strcmp(word, "removable") == 0) {
        volume->device.Characteristics |= FILE_REMOVABLE_MEDIA;
        volume->disk.Characteristics |= FILE_REMOVABLE_MEDIA;
        return true;
    }
    return false;
}

void kz_new_volume(PFLT_VOLUME volume)
{
    volume->type = FLT_FSTYPE_NTFS;
    volume->is_cached = true;
    volume->sector = 512;
    volume->device = (DEVICE_OBJECT){.Type = 3, .Size = sizeof(DEVICE_OBJECT), .DeviceType = FILE_DEVICE_DISK_FILE_SYSTEM};
    volume->disk = (DEVICE_OBJECT){.Type = 3, .Size = sizeof(DEVICE_OBJECT), .DeviceType = FILE_DEVICE_DISK, .SectorSize = 512};
}

/* A volume may be used as long as it is mounted, or as somebody references it. */
bool kz_may_use_volume(const char *call, PFLT_VOLUME volume)
{
    size_t at = 0;
    while (at < kz.volumes_count && kz.volumes[at] != volume)
        at++;
    bool is_there = at < kz.volumes_count && (!volume->is_gone || kz_is_referenced(volume));
    if (!is_there)
        kz_tell_of(volume, KZM_NO_FILTER_OBJECT, call, at == kz.volumes_count ? "no volume" : "a volume that was dismounted (FltObjectReference keeps one)");
    return is_there;
}

uint32_t kz_mount(const char *name, uint64_t *number)
{
    KzTold answer = kz_event_with(kz_worker(), (KazdrinEvent){.event = KZE_MOUNT}, name, strlen(name));
    if (answer.status != KZS_OK)
        return answer.status;
    PFLT_VOLUME volume = kz_memory(sizeof *volume);
    volume->id = answer.told.volume;
    snprintf(volume->name, sizeof volume->name, "%s", name);
    kz_new_volume(volume);
    volume->is_case_sensitive = kz_is_in_folder(volume->id); /* its names are the machine's */
    volume->is_cached = !kz_is_in_folder(volume->id);        /* and its files may have other names and writers there */
    kz.volumes[kz.volumes_count++] = volume;
    *number = volume->id;
    return KZS_OK;
}

/* ---- Dismount, in the order of fm_worker's dismount: the instances are stopped, the handles are dropped, and then the instances end. */
static uint32_t start_dismount(PFLT_VOLUME volume)
{
    kz_end_notices(NULL, volume);
    kz_end_oplocks(NULL, volume);
    kz_end_waiting(NULL, volume); /* a file system that goes answers who waits in it */
    kz_end_caches(volume);
    kz_settle();
    uint32_t status = kz_event(kz_worker(), (KazdrinEvent){.event = KZE_START_DISMOUNT, .volume = volume->id}).status;
    if (status != KZS_OK)
        return status;
    volume->is_dismounting = true;
    return KZS_OK;
}

static void drop_handles(PFLT_VOLUME volume)
{
    for (;;) {
        KzTold dropped = kz_event(kz_worker(), (KazdrinEvent){.event = KZE_DROP_HANDLE, .volume = volume->id});
        if (dropped.status != KZS_OK || !dropped.told.has)
            return;
        kz_drop_file(dropped.told.handle);
    }
}

/* Each instance on the volume goes a step: the status that stops one, or 0. */
static uint32_t each(PFLT_VOLUME volume, uint32_t (*step)(PFLT_INSTANCE))
{
    for (size_t at = 0; at < kz.instances_count; at++) {
        uint32_t status = kz.instances[at]->volume == volume && kz_phase(kz.instances[at]) != KZP_INSTANCE_DETACHED ? step(kz.instances[at]) : KZS_OK;
        if (status != KZS_OK)
            return status;
    }
    return KZS_OK;
}

uint32_t kz_dismount(PFLT_VOLUME volume)
{
    uint32_t status = volume->is_dismounting ? KZS_OK : start_dismount(volume);
    if (status == KZS_OK)
        status = each(volume, kz_stop_for_dismount);
    if (status != KZS_OK)
        return status;
    drop_handles(volume);
    status = each(volume, kz_finish_teardown);
    if (status != KZS_OK)
        return status;
    status = kz_until_free("empty the volume", (KazdrinEvent){.event = KZE_EMPTY_VOLUME, .volume = volume->id}, NULL);
    if (status != KZS_OK)
        return status;
    kz_clean_up();
    status = kz_until_free("finish the volume", (KazdrinEvent){.event = KZE_FINISH_VOLUME, .volume = volume->id}, NULL);
    volume->is_gone = status == KZS_OK;
    return status;
}
