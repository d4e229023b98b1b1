/* What a handle of the volume itself reads and writes: the boot sector as NTFS has it, by what else is said of the volume, zeros, and what was written. No file's bytes lie there. */
#include "filesystem/sectors.h"

#include "core/client.h"
#include "core/module.h"
#include "filesystem/bytes.h"
#include "filesystem/volumes.h"

struct KzSectorState {
    struct {
        KzPages pages;
        bool is_made;
    } of[sizeof kz.volumes / sizeof kz.volumes[0]];
};

/* $Boot: who hasn't locked the volume writes nothing behind it. */
enum { BOOT = 8192, FIRST = 512 };

static void put(uint8_t *at, uint64_t value, unsigned bytes)
{
    for (unsigned byte = 0; byte < bytes; byte++)
        at[byte] = (uint8_t)(value >> 8 * byte);
}

static void make_boot(PFLT_VOLUME volume, uint8_t *boot)
{
    memcpy(boot, "\xeb\x52\x90NTFS    ", 11);
    put(boot + 0x0b, volume->sector, 2);
    boot[0x0d] = 1; /* sectors of a cluster */
    boot[0x15] = 0xf8;
    put(boot + 0x18, 63, 2);
    put(boot + 0x1a, 255, 2);
    put(boot + 0x24, 0x800080, 4);
    put(boot + 0x28, (uint64_t)kz_units() - 1, 8); /* the last one has a copy of this */
    boot[0x40] = (uint8_t)(volume->sector > 1024 ? -10 : 1024 / volume->sector);
    boot[0x44] = (uint8_t)(volume->sector > 4096 ? -12 : 4096 / volume->sector);
    put(boot + 0x48, volume->id + 1u, 8);
    put(boot + 0x1fe, 0xaa55, 2);
}

static KzPages *pages_of(PFLT_VOLUME volume)
{
    uint8_t boot[FIRST] = {0};
    bool *is_made = &kz.sector->of[volume->id].is_made;
    KzPages *pages = &kz.sector->of[volume->id].pages;
    if (!*is_made && volume->type == FLT_FSTYPE_NTFS) {
        make_boot(volume, boot);
        kz_put_bytes(pages, 0, boot, sizeof boot);
        kz_put_bytes(pages, (uint64_t)(kz_units() - 1) * volume->sector, boot, sizeof boot);
    }
    *is_made = true;
    return pages;
}

NTSTATUS kz_call_sectors(const KzFile *file, const KazdrinData *call, uint8_t *bytes, size_t *length)
{
    PFLT_VOLUME volume = file->volume;
    bool is_write = call->operation == KZE_WRITE;
    uint64_t asked = is_write ? call->length : call->len, size = (uint64_t)kz_units() * volume->sector;
    *length = 0;
    if ((!is_write && call->operation != KZE_READ) || volume->type == FLT_FSTYPE_MUP)
        return STATUS_INVALID_DEVICE_REQUEST;
    if (call->offset % volume->sector || asked % volume->sector)
        return STATUS_INVALID_PARAMETER;
    if (asked && call->offset >= size)
        return STATUS_END_OF_FILE;
    if (is_write && volume->locker != file && call->offset + asked > BOOT)
        return STATUS_ACCESS_DENIED;
    kz_uses_all();
    *length = (size_t)(asked < size - call->offset ? asked : size - call->offset);
    if (is_write)
        kz_put_bytes(pages_of(volume), call->offset, bytes, *length);
    else
        kz_get_bytes(pages_of(volume), call->offset, bytes, *length);
    return STATUS_SUCCESS;
}

static void free_sectors(void)
{
    for (size_t at = 0; at < sizeof kz.volumes / sizeof kz.volumes[0]; at++)
        kz_cut_bytes(&kz.sector->of[at].pages, 0);
}

const KzModule kz_sector_module = {KZ_STATE(sector), .free = free_sectors};
