/* The file system by a stream's pages, and the operations that these lead to: each begins at the top of the stack, and is carried on by another worker inside the call that needs it. */
#include "manager/paging.h"

#include "cache/asker.h"
#include "cache/paging.h"
#include "core/client.h"
#include "core/memory.h"
#include "core/state.h"
#include "core/told.h"
#include "filesystem/journal.h"
#include "filesystem/fileobject.h"
#include "filesystem/query.h"
#include "filesystem/stream.h"
#include "filesystem/version.h"
#include "manager/below.h"
#include "manager/opaque.h"

#include <stdlib.h>

/* ---- Operations. What others touch is said where their asker says what itself touches behind it. */
static KzAnswer ask(const KzOwn *own, KzFile *file, KazdrinEvent event, const uint8_t *bytes, size_t length)
{
    bool is_said = kz_me->is_paging;
    if (!is_said)
        kz_uses_all();
    kz_me->is_paging = false;
    KzAnswer answer = kz_below(own, file, event, bytes, length);
    kz_me->is_paging = is_said;
    kz_me->is_known &= is_said;
    if (!is_said || answer.is_refused || answer.reply.held)
        kz_uses_all();
    return answer;
}

NTSTATUS kz_page(KzFile *file, const KzPaging *asked, uint64_t *there)
{
    const KzOwn own = {.is_waited_for = true, .is_late = true, .irp_flags = asked->flags};
    KazdrinEvent event = {.event = asked->is_write ? KZE_WRITE : KZE_READ, .handle = file->handle, .offset = asked->offset, .len = asked->is_write ? 0 : asked->length};
    KzAnswer answer = ask(&own, file, event, asked->is_write ? asked->bytes : (const uint8_t *)"", asked->is_write ? asked->length : 0);
    *there = asked->is_write ? answer.reply.information : answer.length;
    return answer.reply.held ? STATUS_POSSIBLE_DEADLOCK : kz_status_of(answer); /* nobody lets it go on */
}

NTSTATUS kz_ask_for_cache(KzFile *file, const KzAsked *asked)
{
    const KzOwn own = {.is_waited_for = true, .is_late = true, .irp_flags = asked->irp_flags, .opaque = asked};
    return kz_status_of(ask(&own, file, kz_opaque_event(asked, (KazdrinEvent){.event = KZE_OTHER, .handle = file->handle}), (const uint8_t *)"", 0));
}

/* ---- By pages. On a volume that doesn't cache those of a section. */
static bool has_pages(const KzOp *op)
{
    const KzFile *file = op->file;
    return file->name && !file->is_volume && !kz_is_directory(file->name) && (kz_is_caching(file->volume) || kz_cache_of(file));
}

bool kz_goes_by_pages(const KzOp *op)
{
    bool is_data = op->event == KZE_READ || op->event == KZE_WRITE;
    bool is_uncached = op->own.irp_flags & (IRP_NOCACHE | IRP_PAGING_IO) || op->file->object.Flags & FO_NO_INTERMEDIATE_BUFFERING;
    return is_data && !is_uncached && kz_is_caching(op->file->volume) && has_pages(op);
}

static PIRP top_of(const KzOp *op)
{
    return op->own.is_fast ? KZ_TOP_FAST : KZ_TOP_REQUEST;
}

/* As FsRtlCopyRead and FsRtlCopyWrite have it: the system asks once more, with an IRP. */
static bool needs_irp(const KzOp *op, const KazdrinData *call)
{
    enum { AWAY = 0x2000 };
    const KzFile *file = op->file;
    const KzStream *stream = kz_seen_stream(file);
    bool is_far = call->offset >= stream->valid + AWAY || call->offset + call->length > kz_allocation_of(stream);
    return op->own.is_fast && (!file->object.PrivateCacheMap || (op->event == KZE_WRITE && (file->object.Flags & FO_WRITE_THROUGH || is_far)));
}

/* Who waits for that lock has it already. */
static NTSTATUS cannot_lock(const KzFile *file)
{
    kz_tell(KZM_PAGE_WAITS, "the file system", "the lock of \\%s is held by an operation that waits for this one: it waits for ever", file->path);
    return STATUS_POSSIBLE_DEADLOCK;
}

/* One who reads on and on has the next pages read beside it. */
static void note_read(KzCache *cache, uint64_t offset, uint64_t end)
{
    uint64_t count = kz_pages_of(cache->stream->size), next = kz_pages_of(end);
    if (offset && offset == cache->last && next < count) {
        cache->ahead = next;
        cache->ahead_count = count - next < KZ_CLUSTER ? count - next : KZ_CLUSTER;
    }
    cache->last = end;
}

static NTSTATUS read_pages(KzOp *op, const KazdrinData *call, size_t *length)
{
    KzCache *cache = kz_begin_cache(op->file);
    uint64_t size = kz_seen_stream(op->file)->size, rest = size - call->offset;
    if (!cache)
        return STATUS_INSUFFICIENT_RESOURCES;
    if (!kz_lock_stream(cache, false))
        return cannot_lock(op->file);
    *length = call->len < rest ? call->len : (size_t)rest;
    NTSTATUS status = kz_read_pages(cache, call->offset, kz_me->room, *length, top_of(op));
    note_read(cache, call->offset, call->offset + *length);
    kz_unlock_stream(cache, kz_me);
    return status;
}

/* A file that is made larger is so at once; where the write fails it is as large as before. */
static NTSTATUS write_locked(KzOp *op, KzCache *cache, const KazdrinData *call, const uint8_t *bytes)
{
    KzFile *file = op->file;
    uint64_t size = cache->stream->size, end = call->offset + call->length;
    NTSTATUS status = end > size ? kz_grow(file, end) : STATUS_SUCCESS;
    if (!NT_SUCCESS(status))
        return status;
    status = kz_write_pages(cache, call->offset, bytes, call->length, top_of(op));
    kz_uses_stream(file->name, KZU_WRITES);
    if (!NT_SUCCESS(status) && end > size)
        kz_resize(file, size);
    if (!NT_SUCCESS(status))
        return status;
    kz_journal_write(file->name, call->offset, call->length, size);
    kz_note_written(file, call->offset, call->length);
    return file->object.Flags & FO_WRITE_THROUGH ? kz_flush_cache(cache, call->offset, call->length) : status;
}

static NTSTATUS write_pages(KzOp *op, const KazdrinData *call)
{
    KzCache *cache = kz_begin_cache(op->file);
    if (!cache)
        return STATUS_INSUFFICIENT_RESOURCES;
    if (!kz_lock_stream(cache, call->offset + call->length > cache->stream->valid))
        return cannot_lock(op->file);
    uint8_t *bytes = kz_memory(call->length);
    kazdrin_lent(&kz.manager, &(KazdrinEvent){.worker = kz_worker()}, &(KazdrinData){0}, bytes, call->length);
    NTSTATUS status = write_locked(op, cache, call, bytes);
    free(bytes);
    kz_unlock_stream(cache, kz_me);
    return status;
}

NTSTATUS kz_call_pages(KzOp *op, const KazdrinData *call, size_t *length)
{
    bool before = kz_me->is_paging;
    *length = 0;
    if (needs_irp(op, call))
        return STATUS_FLT_DISALLOW_FAST_IO;
    kz_me->is_paging = true;
    NTSTATUS status = op->event == KZE_WRITE ? write_pages(op, call) : read_pages(op, call, length);
    kz_me->is_paging = before;
    return status;
}

/* ---- By a view of it. */
static NTSTATUS touch(KzCache *cache, uint64_t offset, uint8_t *bytes, size_t length, bool is_written)
{
    KzAsker before = kz_ask_as(NULL, false);
    cache->users++;
    NTSTATUS status = is_written ? kz_touch_pages(cache, offset, bytes, length) : kz_read_pages(cache, offset, bytes, length, NULL);
    if (is_written)
        kz_write_modified(cache);
    cache->users--;
    cache->idle = kz.passed;
    kz_ask_again(&before);
    return status;
}

bool kz_touch(KzFile *file, uint64_t offset, uint8_t *bytes, size_t *length, bool is_written, NTSTATUS *status)
{
    bool has = (kz_is_caching(file->volume) || kz_cache_of(file)) && file->name && !file->is_volume && !kz_is_directory(file->name);
    KzCache *cache = has ? kz_stream_cache(file) : NULL;
    if (!cache)
        return false;
    kz_uses_all();
    uint64_t end = kz_pages_of(cache->stream->size) * KZ_PAGE, rest = offset < end ? end - offset : 0;
    *length = *length < rest ? *length : (size_t)rest;
    *status = *length ? touch(cache, offset, bytes, *length, is_written) : STATUS_ACCESS_VIOLATION;
    return true;
}

/* ---- By the file itself. What lies before a write and was never written is zeros, which are written too. */
static NTSTATUS close_gap(KzFile *file, uint64_t offset)
{
    KzStream *stream = file->name->stream;
    uint64_t valid = stream->valid, size = stream->size;
    if (offset <= valid || !kz_is_caching(file->volume))
        return STATUS_SUCCESS;
    NTSTATUS status = offset > size ? kz_resize(file, offset) : STATUS_SUCCESS;
    KzCache *cache = NT_SUCCESS(status) ? kz_stream_cache(file) : NULL;
    if (!cache)
        return NT_SUCCESS(status) ? STATUS_INSUFFICIENT_RESOURCES : status;
    status = kz_zero_pages(cache, offset, KZ_TOP_REQUEST);
    return NT_SUCCESS(status) ? kz_flush_cache(cache, valid, offset - valid) : status;
}

/* Zeros that a control code writes are the file's own: pages that have something else go. */
void kz_note_zeros(KzFile *file)
{
    KzCache *cache = kz_cache_of(file);
    if (cache)
        kz_purge_cache(cache, 0, 0, false);
}

NTSTATUS kz_begin_control(KzFile *file)
{
    KzCache *cache = kz_cache_of(file);
    return cache ? kz_flush_cache(cache, 0, 0) : STATUS_SUCCESS;
}

static bool is_data_of(const KazdrinData *call)
{
    return call->operation == KZE_READ || call->operation == KZE_WRITE;
}

/* What it does needs the stream's lock: alone if it changes the file. */
static bool takes_lock(const KzOp *op, const KazdrinData *call)
{
    return !(op->own.irp_flags & IRP_PAGING_IO) && (is_data_of(call) || call->operation == KZE_SET_SIZE) && kz_cache_of(op->file);
}

static NTSTATUS flush(KzCache *cache)
{
    bool before = kz_me->is_paging;
    kz_me->is_paging = true;
    NTSTATUS status = kz_flush_cache(cache, 0, 0);
    kz_me->is_paging = before;
    return status;
}

NTSTATUS kz_begin_uncached(KzOp *op, const KazdrinData *call)
{
    KzFile *file = op->file;
    NTSTATUS status = STATUS_SUCCESS;
    if (!has_pages(op) || op->own.irp_flags & IRP_PAGING_IO)
        return status;
    if (call->operation == KZE_WRITE && call->length)
        status = close_gap(file, call->offset);
    KzCache *cache = kz_cache_of(file);
    if (!cache || !NT_SUCCESS(status))
        return status;
    if (call->operation == KZE_FLUSH)
        return flush(cache);
    kz_uses_all();
    if (takes_lock(op, call) && !kz_lock_stream(cache, call->operation != KZE_READ))
        return cannot_lock(file);
    uint64_t length = call->operation == KZE_WRITE ? call->length : call->len;
    if (is_data_of(call) && length)
        status = kz_flush_cache(cache, call->offset, length);
    if (!NT_SUCCESS(status) && takes_lock(op, call))
        kz_unlock_stream(cache, kz_me);
    return status;
}

void kz_show_write(const KzOp *op, const KazdrinData *call, const uint8_t *bytes)
{
    KzCache *cache = kz_is_caching(op->file->volume) || !has_pages(op) || kz_is_for_cache(op) ? NULL : kz_cache_of(op->file);
    if (cache)
        kz_see_write(cache, call->offset, bytes, call->length);
}

void kz_end_uncached(KzOp *op, const KazdrinData *call)
{
    KzCache *cache = has_pages(op) ? kz_cache_of(op->file) : NULL;
    if (!cache || !takes_lock(op, call))
        return;
    if (call->operation == KZE_WRITE && call->length) {
        kz_purge_cache(cache, call->offset, call->length, false);
        cache->told = cache->told > call->offset + call->length ? cache->told : call->offset + call->length;
    }
    kz_unlock_stream(cache, kz_me);
    kz_let_cache_go(cache);
}
