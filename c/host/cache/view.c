/* Views: memory of a program with what the stream's pages have. What the program changes there is found when somebody next comes to the stream, and is dirty from then on. */
#include "cache/paging.h"

#include "core/client.h"
#include "core/memory.h"
#include "filesystem/fileobject.h"

#include <stdlib.h>

/* Where a view may begin. */
enum { GRAIN = 0x10000 };

KzArea *kz_open_area(KzFile *file, uint64_t size, bool is_for_scan)
{
    KzCache *cache = kz_stream_cache(file);
    if (!cache)
        return NULL;
    KzArea *made = kz_memory(sizeof *made);
    *made = (KzArea){.next = cache->areas, .cache = cache, .file = file, .size = size, .is_for_scan = is_for_scan};
    cache->areas = made;
    cache->views++;
    file->users++;
    return made;
}

void kz_close_area(KzArea *area)
{
    KzCache *cache = area->cache;
    KzArea **at = cache ? &cache->areas : NULL;
    while (at && *at != area)
        at = &(*at)->next;
    if (at) {
        *at = area->next;
        cache->views--;
        cache->idle = kz.passed;
    }
    kz_let_go_file(area->file);
    free(area);
}

void kz_let_cache_go(KzCache *cache)
{
    if (cache && !kz_is_caching(cache->holder->volume))
        kz_end_idle_cache(cache);
}

bool kz_is_viewed(const KzCache *cache, uint64_t size)
{
    const KzArea *area = cache->areas;
    while (area && area->is_for_scan)
        area = area->next;
    return (area || cache->mapped) && kz_pages_of(size) < kz_pages_of(cache->stream->size);
}

NTSTATUS kz_map_view(KzCache *cache, const KzMapped *asked, KzMapped **made)
{
    KzMapped *one = kz_memory(sizeof *one);
    *one = *asked;
    one->memory = kz_memory((asked->count + 1) * KZ_PAGE);
    one->bytes = one->memory + (KZ_PAGE - (uintptr_t)one->memory % KZ_PAGE);
    one->next = cache->mapped;
    cache->mapped = one; /* from here on its pages stay */
    cache->views++;
    NTSTATUS status = kz_bring_pages(cache, one->first, one->first + one->count, NULL);
    if (!NT_SUCCESS(status)) {
        kz_unmap_view(cache, one);
        return status;
    }
    for (uint64_t at = 0; at < one->count; at++)
        memcpy(one->bytes + at * KZ_PAGE, kz_page_of(cache, one->first + at)->bytes, KZ_PAGE);
    *made = one;
    return status;
}

NTSTATUS kz_map_area(const KzArea *area, uint64_t from, uint64_t length, const KzMapped *asked, KzMapped **made)
{
    KzMapped of = *asked;
    uint64_t rest = from < area->size ? area->size - from : 0;
    if (from % GRAIN)
        return STATUS_MAPPED_ALIGNMENT;
    if (!rest || length > rest)
        return STATUS_INVALID_VIEW_SIZE;
    if (!area->cache)
        return STATUS_FILE_INVALID; /* its volume is gone */
    of.first = from / KZ_PAGE;
    of.count = kz_pages_of(from + (length ? length : rest)) - of.first;
    return kz_map_view(area->cache, &of, made);
}

void kz_unmap_view(KzCache *cache, KzMapped *gone)
{
    KzMapped **at = &cache->mapped;
    kz_take_views(cache);
    while (*at != gone)
        at = &(*at)->next;
    *at = gone->next;
    free(gone->memory);
    free(gone);
    cache->views--;
    cache->idle = kz.passed;
    kz.changes++;
}

KzMapped *kz_view_at(const void *address, KzCache **cache)
{
    for (*cache = kz_first_cache(); *cache; *cache = (*cache)->next)
        for (KzMapped *one = (*cache)->mapped; one; one = one->next)
            if ((uintptr_t)address - (uintptr_t)one->bytes < one->count * KZ_PAGE)
                return one;
    return NULL;
}

void kz_unmap_all(const void *owner)
{
    for (KzCache *cache = kz_first_cache(), *after; cache; cache = after) {
        after = cache->next;
        for (KzMapped *one = cache->mapped, *next; one; one = next) {
            next = one->next;
            if (one->owner == owner)
                kz_unmap_view(cache, one);
        }
        kz_let_cache_go(cache);
    }
}

static bool has_page(const KzMapped *view, uint64_t number)
{
    return number >= view->first && number - view->first < view->count;
}

bool kz_is_in_view(const KzCache *cache, uint64_t number)
{
    const KzMapped *one = cache->mapped;
    while (one && !has_page(one, number))
        one = one->next;
    return one != NULL;
}

void kz_show_page(const KzCache *cache, const KzCachedPage *page)
{
    if (cache->mapped)
        kz_uses_all();
    for (const KzMapped *one = cache->mapped; one; one = one->next)
        if (has_page(one, page->number) && !one->is_copy)
            memcpy(one->bytes + (page->number - one->first) * KZ_PAGE, page->bytes, KZ_PAGE);
}

/* What lies past the file's end in its last page is nothing. */
static void take_page(KzCache *cache, KzCachedPage *page, const uint8_t *bytes)
{
    uint64_t begin = page->number * KZ_PAGE, size = cache->stream->size, end = begin + KZ_PAGE < size ? begin + KZ_PAGE : size;
    if (begin >= size || memcmp(page->bytes, bytes, (size_t)(end - begin)) == 0)
        return;
    memcpy(page->bytes, bytes, (size_t)(end - begin));
    bool was_dirty = page->state == KZG_DIRTY;
    kz_soil_page(page);
    page->is_by_view |= !was_dirty;
    kz_show_page(cache, page);
    cache->stream->valid = cache->stream->valid > end ? cache->stream->valid : end;
}

void kz_see_write(KzCache *cache, uint64_t offset, const uint8_t *bytes, size_t length)
{
    for (size_t part; length; offset += part, bytes += part, length -= part) {
        size_t from = offset % KZ_PAGE;
        KzCachedPage *page = kz_page_of(cache, offset / KZ_PAGE);
        part = KZ_PAGE - from < length ? KZ_PAGE - from : length;
        if (!page || page->state == KZG_COMING)
            continue;
        memcpy(page->bytes + from, bytes, part);
        kz_show_page(cache, page);
    }
}

NTSTATUS kz_touch_pages(KzCache *cache, uint64_t offset, const uint8_t *bytes, size_t length)
{
    uint8_t there[KZ_PAGE];
    NTSTATUS status = STATUS_SUCCESS;
    for (size_t part; length && NT_SUCCESS(status); offset += part, bytes += part, length -= part) {
        size_t from = offset % KZ_PAGE;
        part = KZ_PAGE - from < length ? KZ_PAGE - from : length;
        status = kz_read_pages(cache, offset - from, there, sizeof there, NULL);
        if (!NT_SUCCESS(status))
            break;
        memcpy(there + from, bytes, part);
        KzCachedPage *page = kz_page_of(cache, offset / KZ_PAGE);
        take_page(cache, page, there);
        page->is_by_view |= page->state == KZG_DIRTY;
    }
    return status;
}

void kz_take_views(KzCache *cache)
{
    if (cache->mapped)
        kz_uses_all();
    for (KzMapped *one = cache->mapped; one; one = one->next)
        for (uint64_t at = 0; one->is_written && at < one->count; at++) {
            KzCachedPage *page = kz_page_of(cache, one->first + at);
            if (page && page->state != KZG_COMING)
                take_page(cache, page, one->bytes + at * KZ_PAGE);
        }
}
