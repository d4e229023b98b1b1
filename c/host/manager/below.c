/* Operations that a driver begins itself, each carried on by another worker inside the driver's call. The manager begins them below the instance that asks, or at the base: who
 * hears of one is its, as their order, counts, contexts and drains are. */
#include "manager/below.h"

#include "cache/paging.h"
#include "core/client.h"
#include "core/memory.h"
#include "core/op.h"
#include "core/state.h"
#include "core/status.h"
#include "core/told.h"
#include "filesystem/deletion.h"
#include "filesystem/fileobject.h"
#include "filesystem/name.h"
#include "filesystem/store.h"
#include "filesystem/version.h"
#include "filesystem/waiting.h"
#include "manager/base.h"
#include "manager/opaque.h"
#include "manager/disposition.h"
#include "manager/operation.h"
#include "manager/paging.h"
#include "manager/perform.h"
#include "manager/reparse.h"
#include "manager/target.h"

#include <stdlib.h>

FLT_CALLBACK_DATA_FLAGS kz_data_flags(const KzOp *op)
{
    FLT_CALLBACK_DATA_FLAGS own = op->own.is_reissued ? FLTFL_CALLBACK_DATA_REISSUED_IO : FLTFL_CALLBACK_DATA_GENERATED_IO;
    return (op->own.is_fast ? FLTFL_CALLBACK_DATA_FAST_IO_OPERATION : FLTFL_CALLBACK_DATA_IRP_OPERATION) | (op->own.initiator ? own : 0);
}

KPROCESSOR_MODE kz_requestor_of(const KzOp *op)
{
    bool is_of_kernel = op->own.irp_flags & IRP_PAGING_IO || (op->own.is_own && !op->own.is_user);
    return is_of_kernel ? KernelMode : UserMode;
}

KzOp *kz_own_op(PFLT_CALLBACK_DATA data)
{
    for (KzOp *op = kz.ops; op; op = op->next)
        if (op->own.is_own && op->own.data == data && data)
            return op;
    return NULL;
}

NTSTATUS kz_status_of(KzAnswer answer)
{
    if (answer.reply.held)
        return STATUS_TIMEOUT;
    return answer.other ? answer.other : kz_ntstatus(answer.reply.status);
}

KzReply kz_cancelled(const KzOp *op, NTSTATUS *other)
{
    bool is_exact = false;
    NTSTATUS status = op->other ? op->other : STATUS_ACCESS_DENIED;
    KzReply reply = {.status = NT_SUCCESS(status) ? KZS_DEVICE_FAULT : kz_number(status, &is_exact), .operation = op->id};
    *other = NT_SUCCESS(status) || !is_exact ? status : STATUS_SUCCESS;
    return reply;
}

/* A create's file is known by its key. */
static void name_file(KzFile *file, const char *path, const void **bytes, size_t *length)
{
    if (!file->name)
        file->name = kz_take_any_name(file->volume, path);
    if (!file->name)
        return;
    *bytes = file->name->stream->key;
    *length = strlen(file->name->stream->key);
}

/* Where it begins. What an instance that is gone has left open is cleaned up and closed at the base. */
static KzTold begin_at(const KzOwn *own, KazdrinEvent asked, const void *bytes, size_t length)
{
    asked.kind = own->initiator ? KZB_BELOW : own->is_late ? KZB_LATE : KZB_TOP;
    asked.instance = own->initiator ? own->initiator->id : 0;
    KzTold begun = kz_event_with(kz_worker(), asked, bytes, length);
    bool ends = asked.event == KZE_CLEANUP || asked.event == KZE_CLOSE;
    if (!ends || asked.kind != KZB_BELOW || (begun.status != KZS_NO_INSTANCE && begun.status != KZS_DELETING_OBJECT))
        return begun;
    asked.kind = KZB_BASE;
    return kz_event_with(kz_worker(), asked, bytes, length);
}

static KzAnswer begin(const KzOwn *own, KzFile *file, KazdrinEvent asked, const void *bytes, size_t length)
{
    KzAnswer answer = {0};
    if (asked.event == KZE_CREATE)
        name_file(file, bytes, &bytes, &length);
    KzAsked renames;
    const KzAsked *opaque = own->opaque;
    NTSTATUS wrong = kz_put_target(own->initiator, file, &opaque, &renames);
    if (!NT_SUCCESS(wrong)) {
        answer = kz_refused(wrong);
        answer.is_refused = true;
        return answer;
    }
    kz_me->has_pended = false;
    KzTold begun = begin_at(own, asked, bytes, length);
    answer.reply.status = begun.status;
    answer.is_refused = begun.status != KZS_OK;
    if (answer.is_refused) {
        if (opaque && opaque->target)
            kz_close_target(own->initiator, opaque->target);
        return answer;
    }
    KzOp *op = kz_new_op(begun.told.operation, asked, file, file->volume);
    op->own = *own;
    op->own.is_own = true;
    if (own->initiator && own->initiator == kz_me->reissues.instance) {
        op->own.is_reissued = true;
        op->own.is_user |= kz_me->reissues.is_user;
    }
    op->own.worker = kz_worker();
    op->own.opaque = NULL;
    op->own.create = NULL;
    if (asked.event == KZE_CREATE) {
        const KzCreate usual = kz_usual_create(kz_disposition_of((uint8_t)asked.mode), file->is_directory);
        kz_begin_create(op, own->create ? own->create : &usual);
    }
    if (opaque)
        kz_begin_opaque(op, opaque);
    kz_goes_alone(op);
    if (kz_carry_to_end(op))
        return kz_collect(op);
    return (KzAnswer){.reply = {.held = 1, .operation = op->id}};
}

/* Who hears of a break, or waited for its end, does so in the thread that brought it about. The answer's bytes lie in the client's room. */
static void tell_of_breaks(const KzAnswer *answer)
{
    if (!kz_has_due())
        return;
    uint8_t *kept = kz_memory(answer->length + 1);
    memcpy(kept, kz_me->room, answer->length);
    bool has_pended = kz_me->has_pended;
    while (kz_run_waiting())
        ;
    kz_me->has_pended = has_pended;
    memcpy(kz_me->room, kept, answer->length);
    free(kept);
}

bool kz_recurses(const char *call)
{
    enum { DEEPEST = 8 };
    PFLT_FILTER filter = kz_me->place.filter;
    if (!filter || kz_nested() <= DEEPEST)
        return false;
    kz_tell(KZM_RECURSION, call, "it comes to this filter's own callback again, which calls it again: %u of them are inside one another, and the kernel's stack is gone", kz_nested());
    filter->gave_up = true; /* what it does behind it, it never does */
    return true;
}

/* What ends a recursion may go on. */
static bool begins_more(const KazdrinEvent *asked)
{
    return asked->event != KZE_CLEANUP && asked->event != KZE_CLOSE;
}

KzAnswer kz_below(const KzOwn *own, KzFile *file, KazdrinEvent asked, const void *bytes, size_t length)
{
    if (begins_more(&asked) && kz_recurses(kz_me->place.call ? kz_me->place.call : "a request")) {
        KzAnswer none = kz_refused(STATUS_INSUFFICIENT_RESOURCES);
        none.is_refused = true;
        return none;
    }
    KzPlace before = kz_me->place;
    uint8_t worker = kz_helper();
    bool has_oplocks = kz.oplocks; /* which it may end */
    kz_me->place.worker = worker;
    kz_scheduler->touch(bytes, length, KZT_READS);
    if (own->opaque)
        kz_scheduler->touch(own->opaque->input, own->opaque->input_size, KZT_READS);
    KzAnswer answer = begin(own, file, asked, bytes, length);
    kz_me->place = before;
    if (has_oplocks)
        tell_of_breaks(&answer);
    if (!answer.reply.held)
        kz_helped(worker);
    else if (own->is_waited_for)
        kz_tell(KZM_NOBODY_SETS, "FltReadFile", "another filter holds " KZ_OPERATION ", which this one waits for, and nobody else runs here who would let it go on", (unsigned long long)answer.reply.operation);
    return answer;
}

NTSTATUS kz_put_status(PIO_STATUS_BLOCK to, NTSTATUS status, ULONG_PTR information)
{
    if (!NT_ERROR(status) || kz_me->has_pended)
        *to = (IO_STATUS_BLOCK){.Status = status, .Information = information};
    return status;
}

/* Of an operation that its caller didn't wait for. */
void kz_end_below(KzOp *op)
{
    KzOwn own = op->own;
    KzPlace before = kz_me->place;
    kz_me->place.worker = own.worker;
    KzAnswer answer = kz_collect(op);
    kz_me->place = before;
    kz_helped(own.worker);
    if (own.done)
        own.done(own.given, kz_status_of(answer), answer.reply.information, kz_me->room, answer.length);
}

/* Its handle's cleanup took the name, and nobody has the file open; or it did so in its transaction. */
static bool is_deleted(const KzFile *file)
{
    if (!(file->object.Flags & FO_CLEANUP_COMPLETE) || !file->name)
        return false;
    bool is_hidden = file->transaction && kz_is_hidden(file->name, file->transaction);
    return is_hidden || (file->name->is_gone && !file->name->file->opens);
}

KzAnswer kz_below_file(const KzOwn *own, KzFile *file, KazdrinEvent asked, const void *bytes, size_t length)
{
    if (!kz_handle_of(file, &asked.handle))
        return (KzAnswer){.other = STATUS_INVALID_HANDLE, .reply.status = KZS_NO_HANDLE};
    if (is_deleted(file) && asked.event != KZE_CLOSE)
        return (KzAnswer){.other = STATUS_FILE_DELETED, .reply.status = KZS_DELETE_PENDING};
    return kz_below(own, file, asked, bytes, length);
}

NTSTATUS kz_ask_below(PFLT_INSTANCE initiator, KzFile *file, const KzAsked *asked, void *to, uint64_t *information)
{
    const KzOwn own = {.initiator = initiator, .is_waited_for = true, .opaque = asked};
    KzAnswer answer = kz_below_file(&own, file, kz_opaque_event(asked, (KazdrinEvent){.event = KZE_OTHER}), "", 0);
    size_t there = answer.length < asked->room ? answer.length : asked->room;
    *information = answer.reply.information;
    if (to && there)
        memcpy(to, kz_me->room, there);
    return kz_status_of(answer);
}

NTSTATUS kz_ask_volume_below(PFLT_INSTANCE initiator, const KzAsked *asked, void *to, uint64_t *information)
{
    const KzOwn own = {.initiator = initiator, .is_waited_for = true, .opaque = asked};
    KzFile *root = kz_new_file(initiator->volume, "", true);
    root->users++;
    KzAnswer answer = kz_below(&own, root, kz_opaque_event(asked, (KazdrinEvent){.event = KZE_ON_VOLUME, .volume = initiator->volume->id}), "", 0);
    size_t there = answer.length < asked->room ? answer.length : asked->room;
    *information = answer.reply.information;
    if (to && there)
        memcpy(to, kz_me->room, there);
    kz_let_go_file(root);
    return kz_status_of(answer);
}

/* Its cleanup and its close. */
void kz_close_below(PFLT_INSTANCE initiator, KzFile *file)
{
    const KzOwn own = {.initiator = initiator, .is_waited_for = true};
    if (kz_holds_cache(file))
        kz_flush_cache(kz_cache_of(file), 0, 0); /* its close doesn't wait */
    kz_below(&own, file, (KazdrinEvent){.event = KZE_CLEANUP, .handle = file->handle}, "", 0);
    if (kz_holds_cache(file))
        kz_end_idle_cache(kz_cache_of(file));
    kz_below(&own, file, (KazdrinEvent){.event = KZE_CLOSE, .handle = file->handle}, "", 0);
}

/* Its cleanup; the close comes once nobody has its file object any more. */
void kz_clean_up_below(KzFile *file)
{
    const KzOwn own = {.initiator = file->opener, .is_waited_for = true};
    kz_below(&own, file, (KazdrinEvent){.event = KZE_CLEANUP, .handle = file->handle}, "", 0);
    file->is_close_due = true;
}

void kz_close_if_due(KzFile *file)
{
    const KzOwn own = {.initiator = file->opener, .is_waited_for = true};
    if (!file->is_close_due || file->users > 1)
        return;
    file->is_close_due = false;
    kz_below(&own, file, (KazdrinEvent){.event = KZE_CLOSE, .handle = file->handle}, "", 0);
}

const KzStore kz_manager_store = {kz_go_on_from_base, kz_page, kz_ask_for_cache, kz_run_resumed};
