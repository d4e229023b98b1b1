/* The caches of a run, one for each stream that somebody reads or writes cached. */
#include "cache/cache.h"

#include "core/client.h"
#include "core/memory.h"
#include "core/module.h"
#include "core/op.h"
#include "filesystem/fileobject.h"
#include "filesystem/store.h"
#include "filesystem/version.h"

#include <stdlib.h>

struct KzCacheState {
    KzCache *first;
    unsigned rounds;
};

KzCache *kz_first_cache(void)
{
    return kz.cache->first;
}

unsigned kz_next_round(void)
{
    return ++kz.cache->rounds;
}

KzCache *kz_cache_of(const KzFile *file)
{
    return file->name ? kz_seen_stream(file)->cache : NULL;
}

KzCache *kz_cache_with(const SECTION_OBJECT_POINTERS *pointers)
{
    KzCache *one = kz.cache->first;
    while (one && &one->stream->sections != pointers)
        one = one->next;
    return one;
}

static KzCache *new_cache(KzFile *holder)
{
    KzStream *stream = kz_seen_stream(holder);
    kz_uses_all();
    KzCache *made = kz_memory(sizeof *made);
    *made = (KzCache){.next = kz.cache->first, .stream = stream, .holder = holder, .told = stream->valid};
    stream->cache = kz.cache->first = made;
    stream->sections.DataSectionObject = stream->sections.SharedCacheMap = made;
    holder->users++;
    return made;
}

KzCache *kz_stream_cache(KzFile *file)
{
    return kz_cache_of(file) ? kz_cache_of(file) : new_cache(file);
}

KzCache *kz_begin_cache(KzFile *file)
{
    KzCache *cache = kz_stream_cache(file);
    bool is_late = file->object.Flags & FO_CLEANUP_COMPLETE;
    if (!cache || is_late || file->object.PrivateCacheMap)
        return cache;
    kz_uses_all();
    file->object.PrivateCacheMap = cache;
    cache->maps++;
    return cache;
}

void kz_end_cache(KzCache *cache)
{
    KzFile *holder = cache->holder;
    kz_uses_all();
    KzCache **at = &kz.cache->first;
    while (*at != cache)
        at = &(*at)->next;
    *at = cache->next;
    for (KzFile *file = kz.files; file; file = file->next)
        if (file->object.PrivateCacheMap == cache)
            file->object.PrivateCacheMap = NULL;
    cache->stream->cache = NULL;
    cache->stream->sections.DataSectionObject = cache->stream->sections.SharedCacheMap = NULL;
    while (cache->mapped)
        kz_unmap_view(cache, cache->mapped);
    for (KzArea *area = cache->areas; area; area = area->next)
        area->cache = NULL;
    for (size_t page = 0; page < cache->count; page++)
        free(cache->pages[page].bytes);
    free(cache->pages);
    free(cache);
    kz.changes++;
    kz_let_go_file(holder);
}

bool kz_holds_cache(const KzFile *file)
{
    const KzCache *cache = kz_cache_of(file);
    return cache && cache->holder == file;
}

bool kz_is_for_cache(const KzOp *op)
{
    ULONG flags = op->opaque ? op->opaque->irp_flags : op->own.irp_flags;
    bool is_filters_call = op->opaque && op->opaque->data_flags & FLTFL_CALLBACK_DATA_FS_FILTER_OPERATION;
    return op->own.is_own && !op->own.initiator && kz_cache_of(op->file) && (flags & IRP_PAGING_IO || is_filters_call);
}

void kz_cache_cleaned_up(KzFile *file)
{
    KzCache *cache = file->object.PrivateCacheMap;
    file->object.PrivateCacheMap = NULL;
    if (!cache)
        return;
    kz_uses_all();
    cache->maps--;
    cache->idle = kz.passed;
}

/* Who has a section of it would see what is cut off. */
static bool is_mapped(KzOp *op, const void *stream, uint64_t size)
{
    (void)op;
    const KzStream *one = stream;
    return one->sections.ImageSectionObject || (one->cache && kz_is_viewed(one->cache, size));
}

/* The stream was cut: what lies past its end is zeros, should it grow again. */
static void cut(const void *stream, uint64_t size)
{
    KzCache *cache = ((const KzStream *)stream)->cache;
    if (!cache)
        return;
    kz_uses_all();
    KzCachedPage *last = size % KZ_PAGE ? kz_page_of(cache, size / KZ_PAGE) : NULL;
    for (size_t at = 0; at < cache->count; at++)
        if (cache->pages[at].number >= kz_pages_of(size)) /* one that is in use stays */
            memset(cache->pages[at].bytes, 0, KZ_PAGE);
    kz_forget_pages(cache, kz_pages_of(size), UINT64_MAX);
    if (last) {
        memset(last->bytes + size % KZ_PAGE, 0, KZ_PAGE - size % KZ_PAGE);
        kz_show_page(cache, last);
    }
    cache->told = cache->told < size ? cache->told : size;
}

static void free_caches(void)
{
    while (kz.cache->first) {
        KzCache *gone = kz.cache->first;
        while (gone->mapped)
            kz_unmap_view(gone, gone->mapped);
        kz.cache->first = gone->next;
        for (size_t at = 0; at < gone->count; at++)
            free(gone->pages[at].bytes);
        free(gone->pages);
        free(gone);
    }
}

const KzModule kz_cache_module = {KZ_STATE(cache), .free = free_caches, .is_mapped = is_mapped, .cut = cut};
