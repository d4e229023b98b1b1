/* The pages of a cache, in the order of their numbers. */
#include "cache/cache.h"

#include "core/memory.h"

#include <stdlib.h>

/* Where the page of that number is, or would be. */
static size_t place_of(const KzCache *cache, uint64_t number)
{
    size_t low = 0, high = cache->count;
    while (low < high) {
        size_t middle = low + (high - low) / 2;
        if (cache->pages[middle].number < number)
            low = middle + 1;
        else
            high = middle;
    }
    return low;
}

/* One tag for each page: no address is one of them. */
void kz_uses_page(const KzCache *cache, uint64_t number, KzUse how)
{
    kz_scheduler->uses((const void *)(((uintptr_t)cache << 16) + (uintptr_t)number * sizeof(uint64_t)), how);
}

void kz_uses_table(const KzCache *cache, KzUse how)
{
    kz_scheduler->uses(&cache->pages, how);
}

void kz_uses_writes(const KzCache *cache, KzUse how)
{
    kz_scheduler->uses(&cache->told, how);
}

void kz_reads_pages(const KzCache *cache, uint64_t first, uint64_t end)
{
    kz_uses_table(cache, KZU_READS);
    for (size_t at = place_of(cache, first); kz_scheduler->is_timeless && at < cache->count && cache->pages[at].number < end; at++)
        kz_uses_page(cache, cache->pages[at].number, KZU_READS);
}

KzCachedPage *kz_page_of(const KzCache *cache, uint64_t number)
{
    size_t at = place_of(cache, number);
    return at < cache->count && cache->pages[at].number == number ? &cache->pages[at] : NULL;
}

static void grow(KzCache *cache)
{
    size_t room = cache->room * 2 + KZ_CLUSTER;
    KzCachedPage *pages = kz_common_memory(room * sizeof *pages);
    if (cache->count)
        memcpy(pages, cache->pages, cache->count * sizeof *pages);
    free(cache->pages);
    cache->pages = pages;
    cache->room = room;
}

KzCachedPage *kz_make_cached_page(KzCache *cache, uint64_t number, KzPageState state)
{
    size_t at = place_of(cache, number);
    kz_uses_table(cache, KZU_WRITES);
    kz_uses_page(cache, number, KZU_WRITES);
    if (cache->count == cache->room)
        grow(cache);
    memmove(cache->pages + at + 1, cache->pages + at, (cache->count - at) * sizeof *cache->pages);
    cache->pages[at] = (KzCachedPage){.number = number, .bytes = kz_memory(KZ_PAGE), .state = state, .since = kz.passed};
    cache->count++;
    return &cache->pages[at];
}

void kz_soil_page(KzCachedPage *page)
{
    if (page->state == KZG_DIRTY)
        return;
    page->state = KZG_DIRTY;
    page->is_by_view = false;
    page->since = kz.passed;
}

static bool is_due(const KzCachedPage *page)
{
    return page->state == KZG_DIRTY && !page->is_going;
}

/* A run has pages of one kind. */
unsigned kz_dirty_run(const KzCache *cache, uint64_t *first, uint64_t end)
{
    unsigned count = 0;
    size_t at = place_of(cache, *first);
    kz_reads_pages(cache, *first, end);
    while (at < cache->count && cache->pages[at].number < end && !is_due(&cache->pages[at]))
        at++;
    if (at == cache->count || cache->pages[at].number >= end)
        return 0;
    *first = cache->pages[at].number;
    while (at + count < cache->count && count < KZ_CLUSTER && cache->pages[at + count].number == *first + count && *first + count < end && is_due(&cache->pages[at + count]) &&
           cache->pages[at + count].is_by_view == cache->pages[at].is_by_view)
        count++;
    return count;
}

bool kz_has_dirty(const KzCache *cache)
{
    kz_reads_pages(cache, 0, UINT64_MAX);
    for (size_t at = 0; at < cache->count; at++)
        if (cache->pages[at].state == KZG_DIRTY || cache->pages[at].is_going)
            return true;
    return false;
}

bool kz_forget_pages(KzCache *cache, uint64_t first, uint64_t end)
{
    size_t to = place_of(cache, first);
    kz_reads_pages(cache, first, end);
    bool are_all = true;
    for (size_t at = to; at < cache->count; at++) {
        KzCachedPage one = cache->pages[at];
        bool is_meant = one.number < end, is_busy = one.state == KZG_COMING || one.is_going || kz_is_in_view(cache, one.number);
        are_all &= !is_meant || !is_busy;
        if (is_meant && !is_busy) {
            kz_uses_table(cache, KZU_WRITES);
            kz_uses_page(cache, one.number, KZU_WRITES);
            free(one.bytes);
        } else {
            cache->pages[to++] = one;
        }
    }
    cache->count = to;
    return are_all;
}
