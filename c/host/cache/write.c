/* Pages that were changed are written: as a flush asks for it, or by the lazy writer. */
#include "cache/paging.h"

#include "cache/asker.h"
#include "core/client.h"
#include "core/clock.h"
#include "core/memory.h"
#include "core/module.h"
#include "core/op.h"
#include "core/told.h"
#include "filesystem/fileobject.h"
#include "filesystem/store.h"

#include <stdlib.h>

static void ask_filters(KzCache *cache, UCHAR major, NTSTATUS *status)
{
    const KzAsked asked = {.major = major, .data_flags = FLTFL_CALLBACK_DATA_FS_FILTER_OPERATION};
    kz_keeps_lock(cache);
    *status = kz.store->ask(cache->holder, &asked);
    kz_keeps_lock(cache);
}

/* ---- Runs of pages. */
static uint8_t *take_run(KzCache *cache, uint64_t first, unsigned count)
{
    uint8_t *bytes = kz_memory(count * (size_t)KZ_PAGE);
    kz_uses_writes(cache, KZU_WRITES);
    for (unsigned at = 0; at < count; at++) {
        KzCachedPage *page = kz_page_of(cache, first + at);
        kz_uses_page(cache, page->number, KZU_WRITES);
        memcpy(bytes + at * (size_t)KZ_PAGE, page->bytes, KZ_PAGE);
        page->state = KZG_CLEAN; /* what is written to it meanwhile is to be written again */
        page->is_going = true;
    }
    return bytes;
}

/* What couldn't be written stays dirty, if the file still has it. */
static void end_run(KzCache *cache, uint64_t first, unsigned count, bool is_written)
{
    kz_uses_writes(cache, KZU_WRITES);
    kz_scheduler->uses(&cache->stream->size, KZU_READS);
    for (unsigned at = 0; at < count; at++) {
        KzCachedPage *page = kz_page_of(cache, first + at);
        kz_uses_page(cache, first + at, KZU_WRITES);
        page->is_going = false;
        if (!is_written && page->state == KZG_CLEAN && (first + at) * KZ_PAGE < cache->stream->size) {
            bool is_by_view = page->is_by_view;
            kz_soil_page(page);
            page->is_by_view = is_by_view;
        }
    }
    kz_forget_pages(cache, kz_pages_of(cache->stream->size), first + count);
    kz.changes++;
}

static NTSTATUS write_run(KzCache *cache, uint64_t first, unsigned count, ULONG flags)
{
    uint8_t *bytes = take_run(cache, first, count);
    uint64_t written = 0;
    const KzPaging asked = {.is_write = true, .offset = first * KZ_PAGE, .bytes = bytes, .length = count * (uint32_t)KZ_PAGE, .flags = IRP_PAGING_IO | IRP_NOCACHE | flags};
    kz_keeps_lock(cache);
    NTSTATUS status = kz.store->page(cache->holder, &asked, &written);
    kz_keeps_lock(cache);
    free(bytes);
    end_run(cache, first, count, NT_SUCCESS(status));
    return status;
}

/* The first that fails is told, and the others are tried. With no synchronous paging I/O it is the modified page writer. */
static NTSTATUS write_range(KzCache *cache, uint64_t first, uint64_t end, ULONG flags)
{
    NTSTATUS status = STATUS_SUCCESS;
    unsigned count;
    while ((count = kz_dirty_run(cache, &first, end))) {
        bool is_by_view = kz_page_of(cache, first)->is_by_view, is_meant = flags & IRP_SYNCHRONOUS_PAGING_IO || is_by_view;
        NTSTATUS one = is_meant ? write_run(cache, first, count, flags) : STATUS_SUCCESS;
        status = NT_SUCCESS(status) ? one : status;
        first += count;
    }
    return status;
}

/* ---- What somebody else writes is waited for. */
typedef struct {
    const KzCache *cache;
    uint64_t first, end;
} Range;

static bool are_out(void *given)
{
    const Range *range = given;
    for (size_t at = 0; at < range->cache->count; at++) {
        const KzCachedPage *page = &range->cache->pages[at];
        if (page->is_going && page->number >= range->first && page->number < range->end)
            return false;
    }
    return true;
}

static bool wait_until_out(const KzCache *cache, uint64_t first, uint64_t end)
{
    Range range = {cache, first, end};
    kz_me->is_known &= kz_me->is_paging;
    kz_keeps_lock(cache);
    kz_uses_writes(cache, KZU_READS);
    bool is_over = kz_wait(are_out, &range, "pages of \\%s, which are written", cache->holder->path);
    kz_keeps_lock(cache);
    kz_uses_writes(cache, KZU_READS);
    if (is_over)
        return true;
    kz_tell(KZM_PAGE_WAITS, "paging I/O", "pages of \\%s are written by an operation that waits for this one: it waits for ever", cache->holder->path);
    return false;
}

/* ---- Flush and purge. */
static uint64_t end_of(uint64_t from, uint64_t length)
{
    return length ? kz_pages_of(from + length) : UINT64_MAX;
}

static NTSTATUS flush_locked(KzCache *cache, uint64_t first, uint64_t end)
{
    if (!kz_lock_stream(cache, false)) {
        kz_tell(KZM_PAGE_WAITS, "paging I/O", "a flush of \\%s waits for the file system's lock of it, and who has that waits for the flush: it waits for ever", cache->holder->path);
        return STATUS_POSSIBLE_DEADLOCK;
    }
    NTSTATUS status = write_range(cache, first, end, IRP_SYNCHRONOUS_PAGING_IO);
    bool is_out = wait_until_out(cache, first, end);
    kz_unlock_stream(cache, kz_me);
    return is_out ? status : STATUS_POSSIBLE_DEADLOCK;
}

NTSTATUS kz_flush_cache(KzCache *cache, uint64_t from, uint64_t length)
{
    uint64_t first = from / KZ_PAGE, end = end_of(from, length), at = first;
    Range range = {cache, first, end};
    NTSTATUS status, ignored;
    kz_take_views(cache);
    kz_uses_writes(cache, KZU_READS);
    if (!kz_dirty_run(cache, &at, end) && are_out(&range))
        return STATUS_SUCCESS;
    KzAsker before = kz_ask_as(kz_me->top_level ? kz_me->top_level : KZ_TOP_REQUEST, false);
    cache->users++;
    ask_filters(cache, IRP_MJ_ACQUIRE_FOR_CC_FLUSH, &status);
    if (NT_SUCCESS(status)) {
        status = flush_locked(cache, first, end);
        ask_filters(cache, IRP_MJ_RELEASE_FOR_CC_FLUSH, &ignored);
    }
    if (NT_SUCCESS(status) && !length) {
        kz_uses_writes(cache, KZU_WRITES);
        kz_scheduler->uses(&cache->stream->size, KZU_READS);
        cache->told = cache->stream->valid;
    }
    cache->users--;
    kz_ask_again(&before);
    return status;
}

static void stop_caching(KzCache *cache)
{
    for (KzFile *file = kz.files; file; file = file->next)
        if (file->object.PrivateCacheMap == cache)
            kz_cache_cleaned_up(file);
}

bool kz_purge_cache(KzCache *cache, uint64_t from, uint64_t length, bool ends)
{
    if (ends)
        stop_caching(cache);
    bool are_all = kz_forget_pages(cache, from / KZ_PAGE, end_of(from, length));
    kz.changes++;
    if (ends)
        kz_end_idle_cache(cache);
    return are_all;
}

/* ---- Transactions. What was written before one changes the file is committed: it is in the file, and nobody caches it any more. The one that changes it reads and writes from then on. */
static void keep(const void *stream, KzFile *by)
{
    KzCache *cache = ((const KzStream *)stream)->cache;
    if (!cache)
        return;
    kz_uses_all();
    cache->users++;
    kz_flush_cache(cache, 0, 0);
    cache->users--;
    if (cache->views)
        kz_tell(KZM_TRANSACTION, "a create in a transaction", "of a file that is mapped: its views show what the transaction changes");
    KzFile *before = cache->holder;
    cache->holder = by;
    by->users++;
    kz_let_go_file(before);
    kz_purge_cache(cache, 0, 0, true);
}

static void replace(const void *stream)
{
    KzCache *cache = ((const KzStream *)stream)->cache;
    if (!cache)
        return;
    kz_uses_all();
    if (cache->views)
        kz_tell(KZM_TRANSACTION, "the end of a transaction", "a view of \\%s shows what it did before", cache->holder->path);
    kz_purge_cache(cache, 0, 0, true);
}

/* ---- The lazy writer. */
enum { SECOND = 1000 };

/* Up to where the stream was written: the file system is told once the pages are out. */
static void advance(KzCache *cache)
{
    const FILE_END_OF_FILE_INFORMATION end = {.EndOfFile.QuadPart = (LONGLONG)cache->stream->valid};
    const KzAsked asked = {.major = IRP_MJ_SET_INFORMATION, .code = FileEndOfFileInformation, .input = &end, .input_size = sizeof end, .irp_flags = IRP_PAGING_IO | IRP_SYNCHRONOUS_PAGING_IO, .advances = true};
    kz_uses_writes(cache, KZU_WRITES);
    kz_scheduler->uses(&cache->stream->size, KZU_READS);
    if (cache->stream->valid <= cache->told)
        return;
    cache->told = cache->stream->valid;
    kz_keeps_lock(cache);
    kz.store->ask(cache->holder, &asked);
    kz_keeps_lock(cache);
}

/* What can't be written now is due again a second later. */
static void put_off(KzCache *cache)
{
    for (size_t at = 0; at < cache->count; at++)
        cache->pages[at].since = kz.passed;
    cache->idle = kz.passed;
}

/* What views changed is the modified page writer's. */
static NTSTATUS write_modified(KzCache *cache)
{
    NTSTATUS status = STATUS_SUCCESS, ignored;
    bool is_any = false;
    kz_reads_pages(cache, 0, UINT64_MAX);
    for (size_t at = 0; at < cache->count; at++)
        is_any |= cache->pages[at].state == KZG_DIRTY && cache->pages[at].is_by_view;
    if (!is_any)
        return status;
    kz_me->top_level = (PIRP)(ULONG_PTR)FSRTL_MOD_WRITE_TOP_LEVEL_IRP;
    ask_filters(cache, IRP_MJ_ACQUIRE_FOR_MOD_WRITE, &status);
    if (NT_SUCCESS(status)) {
        status = write_range(cache, 0, UINT64_MAX, 0);
        ask_filters(cache, IRP_MJ_RELEASE_FOR_MOD_WRITE, &ignored);
    }
    kz_me->top_level = (PIRP)(ULONG_PTR)FSRTL_CACHE_TOP_LEVEL_IRP;
    return status;
}

static void write_out(KzCache *cache, bool waits)
{
    const void *by = waits ? (const void *)kz_me : (const void *)kz.cache;
    KzAsker before = kz_ask_as((PIRP)(ULONG_PTR)FSRTL_CACHE_TOP_LEVEL_IRP, true);
    if (waits ? kz_lock_stream(cache, false) : kz_try_stream(cache, by)) {
        if (!NT_SUCCESS(write_modified(cache)) | !NT_SUCCESS(write_range(cache, 0, UINT64_MAX, IRP_SYNCHRONOUS_PAGING_IO)))
            put_off(cache);
        advance(cache);
        kz_unlock_stream(cache, by);
    } else {
        put_off(cache);
    }
    kz_ask_again(&before);
}

void kz_write_modified(KzCache *cache)
{
    const void *by = kz_has_others() ? (const void *)kz_me : (const void *)kz.cache;
    KzAsker before = kz_ask_as((PIRP)(ULONG_PTR)FSRTL_MOD_WRITE_TOP_LEVEL_IRP, true);
    cache->users++;
    if (kz_has_others() ? kz_lock_stream(cache, false) : kz_try_stream(cache, by)) {
        write_modified(cache);
        kz_unlock_stream(cache, by);
    }
    cache->users--;
    kz_ask_again(&before);
}

void kz_end_idle_cache(KzCache *cache)
{
    if (cache->maps || cache->views)
        return;
    kz_uses_all();
    if (!cache->users && !kz_has_dirty(cache))
        kz_end_cache(cache);
}

static LONGLONG due_of(const KzCache *cache)
{
    LONGLONG first = cache->maps || cache->views || cache->users || kz_has_dirty(cache) ? INT64_MAX : cache->idle;
    for (size_t at = 0; at < cache->count; at++)
        if (cache->pages[at].state == KZG_DIRTY && cache->pages[at].since < first)
            first = cache->pages[at].since;
    return first == INT64_MAX ? first : first + SECOND * KZ_MILLISECOND;
}

/* Caches may go and come while one is written. */
static KzCache *next_of(unsigned round, bool is_all)
{
    KzCache *one = kz_first_cache();
    kz_scheduler->uses(kz.cache, KZU_WRITES);
    while (one && (one->round == round || (!is_all && due_of(one) > kz.passed)))
        one = one->next;
    return one;
}

static void write_caches(bool is_all, bool waits)
{
    KzCache *one;
    unsigned round = kz_next_round();
    while ((one = next_of(round, is_all))) {
        one->round = round;
        if (!kz_me->is_paging)
            kz_uses_all();
        kz_take_views(one);
        if (kz_has_dirty(one))
            write_out(one, waits);
        kz_end_idle_cache(one);
    }
}

void kz_write_lazily(bool is_all)
{
    bool before = kz_me->is_paging;
    kz_uses_own();
    kz_me->is_paging = is_all;
    write_caches(is_all, kz_has_others());
    kz_me->is_paging = before;
}

/* A second after a page was changed it is due. */
static bool pass(LONGLONG until)
{
    LONGLONG first = INT64_MAX;
    for (KzCache *one = kz_first_cache(); one; one = one->next) {
        kz_take_views(one);
        first = due_of(one) < first ? due_of(one) : first;
    }
    if (first > until)
        return false;
    kz.passed = first > kz.passed ? first : kz.passed;
    write_caches(false, false);
    return true;
}

void kz_end_caches(PFLT_VOLUME volume)
{
    write_caches(true, kz_has_others());
    for (KzCache *one = kz_first_cache(), *next; one; one = next) {
        next = one->next;
        if (volume && one->stream->file->volume != volume)
            continue;
        if (kz_has_dirty(one))
            kz_say(KZ_SAID_ELSE, "lost: what was written to \\%s never came to the file\n", one->holder->path);
        if (!one->users && (volume || !(one->maps || one->views)))
            kz_end_cache(one);
    }
}

/* ---- What is read ahead of one who reads on and on, beside the requests. */
static bool read_ahead(void)
{
    KzCache *cache = kz_first_cache();
    while (cache && !cache->ahead_count)
        cache = cache->next;
    if (!cache)
        return false;
    uint64_t first = cache->ahead, end = first + cache->ahead_count;
    cache->ahead_count = 0;
    KzAsker before = kz_ask_as((PIRP)(ULONG_PTR)FSRTL_CACHE_TOP_LEVEL_IRP, true);
    if (kz_try_stream(cache, kz.cache)) {
        kz_bring_pages(cache, first, end, NULL);
        kz_unlock_stream(cache, kz.cache);
    }
    kz_ask_again(&before);
    return true;
}

const KzModule kz_writer_module = {.passes = pass, .goes_on = read_ahead, .kept = keep, .replaced = replace};
