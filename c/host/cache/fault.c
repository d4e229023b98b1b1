/* Pages that aren't there are read: by an operation from the top of the stack, by the file object of who cached first. */
#include "cache/paging.h"

#include "cache/asker.h"
#include "core/client.h"
#include "core/told.h"
#include "filesystem/store.h"

typedef struct {
    const KzCache *cache;
    uint64_t number;
} Page;

static bool has_come(void *given)
{
    const Page *page = given;
    const KzCachedPage *there = kz_page_of(page->cache, page->number);
    return !there || there->state != KZG_COMING;
}

/* One that somebody else brings in is waited for. */
static bool wait_for(const KzCache *cache, uint64_t number)
{
    Page page = {cache, number};
    kz_me->is_known &= kz_me->is_paging;
    kz_keeps_lock(cache);
    kz_uses_page(cache, number, KZU_READS);
    bool is_over = kz_wait(has_come, &page, "page %llu of \\%s, which is read", (unsigned long long)number, cache->holder->path);
    kz_keeps_lock(cache);
    kz_uses_page(cache, number, KZU_READS);
    if (is_over)
        return true;
    kz_tell(KZM_PAGE_WAITS, "paging I/O", "page %llu of \\%s is read by an operation that waits for this one: it waits for ever", (unsigned long long)number, cache->holder->path);
    return false;
}

/* What was read, as far as the file still goes; past its end a page has zeros. */
static void take_pages(KzCache *cache, uint64_t first, unsigned count, size_t there)
{
    uint64_t begin = first * KZ_PAGE, size = cache->stream->size, rest = size > begin ? size - begin : 0;
    kz_scheduler->uses(&cache->stream->size, KZU_READS);
    there = there < rest ? there : (size_t)rest;
    for (unsigned at = 0; at < count; at++) {
        KzCachedPage *page = kz_page_of(cache, first + at);
        kz_uses_page(cache, first + at, KZU_WRITES);
        size_t from = at * (size_t)KZ_PAGE, part = there > from ? there - from : 0;
        memcpy(page->bytes, kz_me->room + from, part < KZ_PAGE ? part : KZ_PAGE);
        page->state = KZG_CLEAN;
    }
}

static void drop_pages(KzCache *cache, uint64_t first, unsigned count)
{
    for (unsigned at = 0; at < count; at++)
        kz_page_of(cache, first + at)->state = KZG_CLEAN;
    kz_forget_pages(cache, first, first + count);
}

static NTSTATUS bring(KzCache *cache, uint64_t first, unsigned count)
{
    uint64_t there = 0, begin = first * KZ_PAGE, length = count * (uint64_t)KZ_PAGE;
    for (unsigned at = 0; at < count; at++)
        kz_make_cached_page(cache, first + at, KZG_COMING);
    const KzPaging asked = {.offset = begin, .length = (uint32_t)length, .flags = IRP_PAGING_IO | IRP_NOCACHE | IRP_SYNCHRONOUS_PAGING_IO};
    kz_keeps_lock(cache);
    NTSTATUS status = kz.store->page(cache->holder, &asked, &there);
    kz_keeps_lock(cache);
    kz.changes++;
    if (!NT_SUCCESS(status) && status != STATUS_END_OF_FILE) {
        drop_pages(cache, first, count);
        return status;
    }
    take_pages(cache, first, count, NT_SUCCESS(status) ? (size_t)there : 0);
    return STATUS_SUCCESS;
}

NTSTATUS kz_bring_pages(KzCache *cache, uint64_t first, uint64_t end, PIRP top)
{
    NTSTATUS status = STATUS_SUCCESS;
    KzAsker before = kz_ask_as(kz_me->top_level ? kz_me->top_level : top, false);
    while (first < end && NT_SUCCESS(status)) {
        unsigned count = 0;
        kz_uses_table(cache, KZU_READS);
        kz_uses_page(cache, first, KZU_READS);
        while (count < KZ_CLUSTER && first + count < end && !kz_page_of(cache, first + count))
            count++;
        if (count)
            status = bring(cache, first, count);
        else if (!wait_for(cache, first))
            status = STATUS_POSSIBLE_DEADLOCK;
        first += count ? count : kz_page_of(cache, first) != NULL;
    }
    kz_ask_again(&before);
    return status;
}
