/* Bytes of a stream, from and to its pages. */
#include "cache/paging.h"

#include "core/told.h"

/* Zeros up to a write that begins so far past the valid data are taken to be on the disk. */
enum { KZ_GAP = 1 << 22 };

static bool are_there(const KzCache *cache, uint64_t first, uint64_t end)
{
    for (; first < end; first++) {
        const KzCachedPage *page = kz_page_of(cache, first);
        kz_uses_page(cache, first, KZU_READS);
        if (!page)
            kz_uses_table(cache, KZU_READS);
        if (!page || page->state == KZG_COMING)
            return false;
    }
    return true;
}

/* How many bytes of a range lie in the page that it begins in. */
static size_t part_of(uint64_t offset, uint64_t length)
{
    uint64_t rest = KZ_PAGE - offset % KZ_PAGE;
    return (size_t)(rest < length ? rest : length);
}

NTSTATUS kz_read_pages(KzCache *cache, uint64_t offset, uint8_t *to, size_t length, PIRP top)
{
    uint64_t first = offset / KZ_PAGE, end = kz_pages_of(offset + length);
    while (!are_there(cache, first, end)) {
        NTSTATUS status = kz_bring_pages(cache, first, end, top);
        if (!NT_SUCCESS(status))
            return status;
    }
    for (size_t part; length; offset += part, to += part, length -= part) {
        part = part_of(offset, length);
        memcpy(to, kz_page_of(cache, offset / KZ_PAGE)->bytes + offset % KZ_PAGE, part);
    }
    return STATUS_SUCCESS;
}

/* A page is read before a part of it is written, unless nothing valid is in it. */
static NTSTATUS get_ready(KzCache *cache, uint64_t number, bool is_whole, PIRP top)
{
    bool is_there = kz_page_of(cache, number) != NULL;
    kz_uses_page(cache, number, KZU_READS);
    kz_uses_table(cache, KZU_READS);
    kz_scheduler->uses(&cache->stream->size, KZU_READS);
    if (is_there || !(is_whole || number * KZ_PAGE >= cache->stream->valid))
        return kz_bring_pages(cache, number, number + 1, top);
    kz_make_cached_page(cache, number, KZG_CLEAN);
    return STATUS_SUCCESS;
}

/* First those of which a part stays, since their reads may fail; then the others. */
static NTSTATUS get_all_ready(KzCache *cache, uint64_t offset, size_t length, PIRP top)
{
    uint64_t first = offset / KZ_PAGE, end = kz_pages_of(offset + length);
    for (unsigned pass = 0; pass < 2; pass++)
        for (uint64_t at = first; at < end; at++) {
            bool is_whole = at * KZ_PAGE >= offset && (at + 1) * KZ_PAGE <= offset + length;
            NTSTATUS status = is_whole == (pass == 1) ? get_ready(cache, at, is_whole, top) : STATUS_SUCCESS;
            if (!NT_SUCCESS(status))
                return status;
        }
    return STATUS_SUCCESS;
}

NTSTATUS kz_write_pages(KzCache *cache, uint64_t offset, const uint8_t *from, size_t length, PIRP top)
{
    NTSTATUS status = kz_zero_pages(cache, offset, top);
    while (NT_SUCCESS(status) && !are_there(cache, offset / KZ_PAGE, kz_pages_of(offset + length)))
        status = get_all_ready(cache, offset, length, top);
    if (!NT_SUCCESS(status))
        return status;
    for (size_t part; length; offset += part, from += part, length -= part) {
        KzCachedPage *page = kz_page_of(cache, offset / KZ_PAGE);
        kz_uses_page(cache, page->number, KZU_WRITES);
        part = part_of(offset, length);
        memcpy(page->bytes + offset % KZ_PAGE, from, part);
        kz_soil_page(page);
        kz_show_page(cache, page);
    }
    return status;
}

NTSTATUS kz_zero_pages(KzCache *cache, uint64_t offset, PIRP top)
{
    uint64_t *valid = &cache->stream->valid;
    if (*valid + KZ_GAP < offset) {
        kz_tell(KZM_CACHE, "a write past the valid data", "the zeros of \\%s up to it are on the disk without a paging write", cache->holder->path);
        *valid = offset - KZ_GAP;
    }
    while (*valid < offset) {
        size_t part = part_of(*valid, offset - *valid);
        NTSTATUS status = get_ready(cache, *valid / KZ_PAGE, false, top);
        if (!NT_SUCCESS(status))
            return status;
        KzCachedPage *page = kz_page_of(cache, *valid / KZ_PAGE);
        kz_uses_page(cache, page->number, KZU_WRITES);
        kz_scheduler->uses(&cache->stream->size, KZU_WRITES);
        memset(page->bytes + *valid % KZ_PAGE, 0, part);
        kz_soil_page(page);
        kz_show_page(cache, page);
        *valid += part;
    }
    return STATUS_SUCCESS;
}
