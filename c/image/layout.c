/* A binary's sections in memory, and its addresses as they are there. */
#include "image/pe.h"

#include <string.h>

enum { ABSOLUTE, DIR64 = 10 };

typedef struct {
    uint32_t page, size; /* of the block, with these */
} Block;

static bool relocate_one(KzBytes image, uint32_t page, unsigned entry, uint64_t by, KzRefusal *why)
{
    uint64_t value;
    unsigned kind = entry >> 12;
    uint8_t *place = kz_bytes_at(image, (uint64_t)page + (entry & 0xfff), sizeof value);
    if (kind == ABSOLUTE)
        return true;
    if (kind != DIR64 || !place)
        return kz_refuse(why, kind == DIR64 ? "it has a relocation outside of its image" : "it has a relocation of kind %u, which x64 hasn't", kind);
    memcpy(&value, place, sizeof value);
    value += by;
    memcpy(place, &value, sizeof value);
    return true;
}

static bool relocate_block(KzBytes image, const uint8_t *entries, size_t size, uint32_t page, uint64_t by, KzRefusal *why)
{
    for (size_t at = 0; at + 2 <= size; at += 2) {
        uint16_t entry;
        memcpy(&entry, entries + at, sizeof entry);
        if (!relocate_one(image, page, entry, by, why))
            return false;
    }
    return true;
}

static bool relocate(const KzHeaders *headers, KzBytes image, uint64_t by, KzRefusal *why)
{
    KzBytes table = kz_directory(headers, image, KZ_RELOCATIONS);
    Block block;
    if (headers->is_fixed || (headers->directories[KZ_RELOCATIONS].Size && !table.start))
        return kz_refuse(why, "it has no relocations, or they aren't in its image: link it with /DYNAMICBASE");
    for (size_t at = 0; kz_copy(table, at, &block, sizeof block); at += block.size) {
        if (block.size < sizeof block || block.size > table.size - at)
            return kz_refuse(why, "it has a block of relocations of %u bytes, where %zu are left", block.size, table.size - at);
        if (!relocate_block(image, table.start + at + sizeof block, block.size - sizeof block, block.page, by, why))
            return false;
    }
    return true;
}

bool kz_lay_out(const KzHeaders *headers, KzBytes file, KzBytes image, uint64_t address, KzRefusal *why)
{
    memcpy(image.start, file.start, headers->headers);
    for (unsigned at = 0; at < headers->sections_count; at++) {
        const KzSection *one = &headers->sections[at];
        if (one->raw_size)
            memcpy(image.start + one->at, file.start + one->raw, one->raw_size);
    }
    return address == headers->linked || relocate(headers, image, address - headers->linked, why);
}
