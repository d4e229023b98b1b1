/* Oplocks of a filter's own: it asks for each operation that comes to it, and what is in the way is broken. A request stays with the filter, whose preoperation pends it. */
#include "kit/oplock.h"

#include "core/client.h"
#include "core/memory.h"
#include "core/module.h"
#include "core/op.h"
#include "core/state.h"
#include "core/told.h"
#include "filesystem/fileobject.h"
#include "filesystem/name.h"
#include "filesystem/oplocks.h"
#include "manager/breaks.h"
#include "manager/hand.h"
#include "manager/operation.h"
#include "oplock/oplock.h"

#include <stdlib.h>

/* What a filter's OPLOCK stands for. */
typedef struct Own {
    struct Own *next;
    POPLOCK at;
    KzOplock *oplock;
} Own;

struct KzOwnOplockState {
    Own *first;
    struct Waits *waits; /* of operations that their filters pend */
};

static Own *own_of(POPLOCK at)
{
    Own *one = kz.ownoplock->first;
    while (one && one->at != at)
        one = one->next;
    return one;
}

static KzOplock *oplock_of(POPLOCK at)
{
    const Own *one = own_of(at);
    return one ? one->oplock : NULL;
}

static Own *make_own(POPLOCK at)
{
    Own *one = own_of(at);
    if (one)
        return one;
    one = kz_memory(sizeof *one);
    *one = (Own){.next = kz.ownoplock->first, .at = at};
    return kz.ownoplock->first = one;
}

static void free_own(Own *gone)
{
    Own **at = &kz.ownoplock->first;
    while (*at != gone)
        at = &(*at)->next;
    *at = gone->next;
    kz_free_oplock(&gone->oplock);
    free(gone);
}

VOID FltInitializeOplock(POPLOCK Oplock)
{
    KZ_INSIDE();
    kz_uses_all(); /* what is there already lets go of whoever waits */
    *Oplock = NULL;
    if (own_of(Oplock))
        free_own(own_of(Oplock)); /* other memory was there */
}

VOID FltUninitializeOplock(POPLOCK Oplock)
{
    KZ_CALL();
    Own *one = own_of(Oplock);
    if (!one)
        return;
    kz_give_up_oplock(one->oplock, NULL);
    free_own(one);
}

static void free_owns(void)
{
    while (kz.ownoplock->waits) {
        struct Waits *gone = kz.ownoplock->waits;
        kz.ownoplock->waits = *(struct Waits **)(void *)gone; /* its first field is the next one */
        free(gone);
    }
    while (kz.ownoplock->first)
        free_own(kz.ownoplock->first);
}

/* ---- Requests. One ends as the operation that its filter holds. */
static const FLT_PARAMETERS *parameters_of(const KzOp *op)
{
    return &op->iopb->Parameters;
}

static void end_request(void *given, const KzOplockEnd *how)
{
    KzOp *op = given;
    PFLT_CALLBACK_DATA data = op->data;
    PVOID buffer = parameters_of(op)->FileSystemControl.Buffered.SystemBuffer;
    data->IoStatus = (IO_STATUS_BLOCK){.Status = how->status, .Information = how->levels ? sizeof *how->levels : how->information};
    if (how->levels)
        memcpy(buffer, how->levels, sizeof *how->levels);
    op->cancel.host = NULL;
    FltCompletePendedPreOperation(data, FLT_PREOP_COMPLETE, NULL);
}

static void cancel_request(KzOp *op)
{
    for (Own *one = kz.ownoplock->first; one; one = one->next)
        if (kz_cancel_oplock(one->oplock, op))
            return;
}

static FLT_PREOP_CALLBACK_STATUS answer(PFLT_CALLBACK_DATA data, NTSTATUS status)
{
    data->IoStatus = (IO_STATUS_BLOCK){.Status = status};
    return FLT_PREOP_COMPLETE;
}

/* ---- FSCTL_OPLOCK_BREAK_NOTIFY: it ends as the break is over. */
static KzOplock *notifies(const KzOp *op)
{
    for (const Own *one = kz.ownoplock->first; one; one = one->next)
        if (kz_waits_in_oplock(one->oplock, op))
            return one->oplock;
    return NULL;
}

static void end_notice(KzOp *op, NTSTATUS status)
{
    op->data->IoStatus = (IO_STATUS_BLOCK){.Status = status};
    op->cancel.host = NULL;
    FltCompletePendedPreOperation(op->data, FLT_PREOP_COMPLETE, NULL);
}

static void notify(void *given)
{
    end_notice(given, STATUS_SUCCESS);
}

static void cancel_notice(KzOp *op)
{
    kz_wait_no_more(notifies(op), op);
    end_notice(op, STATUS_CANCELLED);
}

static FLT_PREOP_CALLBACK_STATUS wait_for_end(POPLOCK oplock, KzOp *op)
{
    if (!kz_is_oplock_breaking(oplock_of(oplock)))
        return answer(op->data, STATUS_SUCCESS);
    op->cancel.host = cancel_notice;
    kz_wait_for_oplock(oplock_of(oplock), notify, op);
    return FLT_PREOP_PENDING;
}

/* Handles that are in the way of what none may be beside; of what is shared, that there are locks of bytes. */
static bool has_others(KzOplockKind kind, ULONG count, ULONG flags)
{
    if (kz_is_shared_oplock(kind))
        return count;
    return count > 1 && !(kz_is_by_levels(kind) && flags & OPLOCK_FSCTRL_FLAG_ALL_KEYS_MATCH);
}

static NTSTATUS ask(Own *own, KzOp *op, ULONG code, const REQUEST_OPLOCK_INPUT_BUFFER *input, ULONG count, ULONG flags)
{
    bool is_request = kz_oplock_asked(code, input) != KZ_NONE && !(input && input->Flags & REQUEST_OPLOCK_INPUT_FLAG_ACK);
    KzOplockAsked asked = {kz_oplock_side(op), false, end_request, op};
    if (is_request && FltIsOperationSynchronous(op->data))
        return STATUS_OPLOCK_NOT_GRANTED;
    if (!is_request && code == FSCTL_REQUEST_OPLOCK && !(input->Flags & REQUEST_OPLOCK_INPUT_FLAG_ACK))
        return STATUS_INVALID_PARAMETER;
    asked.has_others = is_request && has_others(kz_oplock_asked(code, input), count, flags);
    return is_request ? kz_request_oplock(&own->oplock, kz_oplock_asked(code, input), &asked) : kz_acknowledge_oplock(own->oplock, code, input, &asked);
}

static FLT_PREOP_CALLBACK_STATUS control(POPLOCK oplock, PFLT_CALLBACK_DATA data, ULONG count, ULONG flags, const char *call)
{
    KzOp *op = kz_op_with(data);
    ULONG code = op && op->opaque ? parameters_of(op)->FileSystemControl.Common.FsControlCode : 0;
    const REQUEST_OPLOCK_INPUT_BUFFER *input = NULL;
    if (!op || !op->opaque || op->opaque->major != IRP_MJ_FILE_SYSTEM_CONTROL || !kz_is_oplock_code(code)) {
        kz_tell(KZM_OPLOCK, call, "of what isn't a control code for oplocks it isn't modelled: it answers STATUS_NOT_SUPPORTED");
        return answer(data, STATUS_NOT_SUPPORTED);
    }
    if (code == FSCTL_OPLOCK_BREAK_NOTIFY)
        return wait_for_end(oplock, op);
    if (code == FSCTL_REQUEST_OPLOCK) {
        if (parameters_of(op)->FileSystemControl.Common.InputBufferLength < sizeof *input || parameters_of(op)->FileSystemControl.Common.OutputBufferLength < sizeof(REQUEST_OPLOCK_OUTPUT_BUFFER))
            return answer(data, STATUS_BUFFER_TOO_SMALL);
        input = parameters_of(op)->FileSystemControl.Buffered.SystemBuffer;
    }
    NTSTATUS status = ask(make_own(oplock), op, code, input, count, flags);
    if (status != STATUS_PENDING)
        return answer(data, status);
    op->cancel.host = cancel_request;
    return FLT_PREOP_PENDING;
}

FLT_PREOP_CALLBACK_STATUS FltOplockFsctrl(POPLOCK Oplock, PFLT_CALLBACK_DATA CallbackData, ULONG OpenCount)
{
    KZ_CALL();
    return control(Oplock, CallbackData, OpenCount, 0, __func__);
}

FLT_PREOP_CALLBACK_STATUS FltOplockFsctrlEx(POPLOCK Oplock, PFLT_CALLBACK_DATA CallbackData, ULONG OpenCount, ULONG Flags)
{
    KZ_CALL();
    return control(Oplock, CallbackData, OpenCount, Flags, __func__);
}

/* ---- Breaks. An operation that has to wait does so in the call, or its filter pends it: then its routine is called once it has to wait no more. */
typedef struct Waits {
    struct Waits *next;
    KzOplock *oplock;
    KzOp *op;
    KzOplockUse use;
    KzOplockSide by;
    bool is_over;
    PFLT_FILTER filter;
    PFLT_INSTANCE instance;
    PVOID context;
    PFLTOPLOCK_WAIT_COMPLETE_ROUTINE routine; /* NULL: its thread waits */
} Waits;

static bool has_to_wait(const Waits *one)
{
    return kz_break_oplock(one->oplock, one->use, &one->by, KZ_ALL_KINDS);
}

static void call_routine(const Waits *one)
{
    uint8_t worker = kz_helper();
    KzPlace before = kz_enter(KZ_IN_COMPLETION, worker, one->filter, one->instance, NULL, NULL);
    unsigned depth = kz_let_driver("completion", one->routine);
    KZ_CALL_DRIVER(one->routine, one->op->data, one->context);
    kz_driver_returned(depth, "completion returns");
    kz_keep_rest(NULL);
    kz_leave(before);
    kz_helped(worker);
}

static Waits **wait_of(const KzOp *op)
{
    Waits **at = &kz.ownoplock->waits;
    while (*at && (*at)->op != op)
        at = &(*at)->next;
    return at;
}

static void forget_wait(Waits *one)
{
    *wait_of(one->op) = one->next;
    one->op->cancel.host = NULL;
    free(one);
}

static void end_wait(Waits *one, NTSTATUS status)
{
    const Waits waits = *one;
    one->op->data->IoStatus = one->op->shown.status = (IO_STATUS_BLOCK){.Status = status};
    forget_wait(one);
    call_routine(&waits);
}

/* It looks again: another one may be in the way by now. */
static void go_on(void *given)
{
    Waits *one = given;
    one->is_over = !has_to_wait(one);
    kz.changes++;
    kz_scheduler->touch(one, 0, KZT_GIVES);
    if (!one->is_over)
        kz_wait_for_oplock(one->oplock, go_on, one);
    else if (one->routine)
        end_wait(one, STATUS_SUCCESS);
}

static bool is_over(void *one)
{
    return ((Waits *)one)->is_over;
}

static void cancel_wait(KzOp *op)
{
    Waits *one = *wait_of(op);
    if (!one)
        return;
    kz_wait_no_more(one->oplock, one);
    end_wait(one, STATUS_CANCELLED);
}

static FLT_PREOP_CALLBACK_STATUS wait_here(Waits *one, PFLT_CALLBACK_DATA data)
{
    kz_wait_for_oplock(one->oplock, go_on, one);
    if (kz_let_break_end(is_over, one, kz_name_now(one->op->file)))
        return FLT_PREOP_SUCCESS_WITH_CALLBACK;
    kz_wait_no_more(one->oplock, one);
    return answer(data, STATUS_CANNOT_BREAK_OPLOCK);
}

static FLT_PREOP_CALLBACK_STATUS wait_apart(const Waits *waits, PFLTOPLOCK_PREPOST_CALLBACKDATA_ROUTINE before)
{
    Waits *one = kz_memory(sizeof *one);
    *one = *waits;
    one->next = kz.ownoplock->waits;
    kz.ownoplock->waits = one;
    if (before) {
        unsigned depth = kz_let_driver("before it waits", before);
        KZ_CALL_DRIVER(before, one->op->data, one->context);
        kz_driver_returned(depth, "it waits");
    }
    one->op->cancel.host = cancel_wait;
    kz_wait_for_oplock(one->oplock, go_on, one);
    return FLT_PREOP_PENDING;
}

/* How the filter asks. */
typedef struct {
    POPLOCK oplock;
    PFLT_CALLBACK_DATA data;
    ULONG flags;
    PVOID context;
    PFLTOPLOCK_WAIT_COMPLETE_ROUTINE routine;
    PFLTOPLOCK_PREPOST_CALLBACKDATA_ROUTINE before;
    const char *call;
} Asked;

static bool goes_beside(const KzOp *op, ULONG flags)
{
    return flags & OPLOCK_FLAG_COMPLETE_IF_OPLOCKED || (op->event == KZE_CREATE && op->create.options & FILE_COMPLETE_IF_OPLOCKED);
}

static FLT_PREOP_CALLBACK_STATUS break_by(const Asked *asked, KzOp *op, KzOplockUse use)
{
    Waits one = {.oplock = oplock_of(asked->oplock), .op = op, .use = use, .by = kz_oplock_side(op), .filter = kz_me->place.filter, .instance = kz_me->place.instance,
                 .context = asked->context, .routine = asked->routine};
    if (use == KZ_GIVES_UP_ALL || asked->flags & OPLOCK_FLAG_IGNORE_OPLOCK_KEYS)
        one.by.file = NULL, one.by.key = NULL;
    if (use == KZ_DOES_NOTHING || !one.oplock || !has_to_wait(&one))
        return FLT_PREOP_SUCCESS_WITH_CALLBACK;
    if (goes_beside(op, asked->flags)) {
        asked->data->IoStatus.Status = op->shown.status.Status = STATUS_OPLOCK_BREAK_IN_PROGRESS; /* which its filter may pass on */
        return FLT_PREOP_SUCCESS_WITH_CALLBACK;
    }
    return one.routine ? wait_apart(&one, asked->before) : wait_here(&one, asked->data);
}

static FLT_PREOP_CALLBACK_STATUS check(const Asked *asked)
{
    KzOp *op = kz_op_with(asked->data);
    if (!op) {
        kz_tell(KZM_NOT_OWN_DATA, asked->call, "callback data of no operation");
        return FLT_PREOP_SUCCESS_WITH_CALLBACK;
    }
    if (op->event == KZE_CREATE && !op->opaque)
        kz_take_oplock_key(op);
    if (asked->flags & OPLOCK_FLAG_OPLOCK_KEY_CHECK_ONLY)
        return FLT_PREOP_SUCCESS_WITH_CALLBACK;
    if (op->event == KZE_CLEANUP && !op->opaque) {
        kz_give_up_oplock(oplock_of(asked->oplock), &op->file->object);
        return FLT_PREOP_SUCCESS_WITH_CALLBACK;
    }
    return break_by(asked, op, kz_oplock_use(op, parameters_of(op)));
}

FLT_PREOP_CALLBACK_STATUS FltCheckOplock(POPLOCK Oplock, PFLT_CALLBACK_DATA CallbackData, PVOID Context, PFLTOPLOCK_WAIT_COMPLETE_ROUTINE WaitCompletionRoutine,
                                         PFLTOPLOCK_PREPOST_CALLBACKDATA_ROUTINE PrePostCallbackDataRoutine)
{
    KZ_CALL();
    return check(&(Asked){Oplock, CallbackData, 0, Context, WaitCompletionRoutine, PrePostCallbackDataRoutine, __func__});
}

FLT_PREOP_CALLBACK_STATUS FltCheckOplockEx(POPLOCK Oplock, PFLT_CALLBACK_DATA CallbackData, ULONG Flags, PVOID Context, PFLTOPLOCK_WAIT_COMPLETE_ROUTINE WaitCompletionRoutine,
                                           PFLTOPLOCK_PREPOST_CALLBACKDATA_ROUTINE PrePostCallbackDataRoutine)
{
    KZ_CALL();
    return check(&(Asked){Oplock, CallbackData, Flags, Context, WaitCompletionRoutine, PrePostCallbackDataRoutine, __func__});
}

static FLT_PREOP_CALLBACK_STATUS give_up(const Asked *asked, KzOplockUse use)
{
    KzOp *op = kz_op_with(asked->data);
    if (op)
        return break_by(asked, op, use);
    kz_tell(KZM_NOT_OWN_DATA, asked->call, "callback data of no operation");
    return FLT_PREOP_SUCCESS_WITH_CALLBACK;
}

FLT_PREOP_CALLBACK_STATUS FltOplockBreakToNone(POPLOCK Oplock, PFLT_CALLBACK_DATA CallbackData, PVOID Context, PFLTOPLOCK_WAIT_COMPLETE_ROUTINE WaitCompletionRoutine,
                                               PFLTOPLOCK_PREPOST_CALLBACKDATA_ROUTINE PrePostCallbackDataRoutine)
{
    KZ_CALL();
    return give_up(&(Asked){Oplock, CallbackData, 0, Context, WaitCompletionRoutine, PrePostCallbackDataRoutine, __func__}, KZ_GIVES_UP_ALL);
}

FLT_PREOP_CALLBACK_STATUS FltOplockBreakToNoneEx(POPLOCK Oplock, PFLT_CALLBACK_DATA CallbackData, ULONG Flags, PVOID Context, PFLTOPLOCK_WAIT_COMPLETE_ROUTINE WaitCompletionRoutine,
                                                 PFLTOPLOCK_PREPOST_CALLBACKDATA_ROUTINE PrePostCallbackDataRoutine)
{
    KZ_CALL();
    return give_up(&(Asked){Oplock, CallbackData, Flags, Context, WaitCompletionRoutine, PrePostCallbackDataRoutine, __func__}, KZ_GIVES_UP_ALL);
}

FLT_PREOP_CALLBACK_STATUS FltOplockBreakH(POPLOCK Oplock, PFLT_CALLBACK_DATA CallbackData, ULONG Flags, PVOID Context, PFLTOPLOCK_WAIT_COMPLETE_ROUTINE WaitCompletionRoutine,
                                          PFLTOPLOCK_PREPOST_CALLBACKDATA_ROUTINE PrePostCallbackDataRoutine)
{
    KZ_CALL();
    return give_up(&(Asked){Oplock, CallbackData, Flags, Context, WaitCompletionRoutine, PrePostCallbackDataRoutine, __func__}, KZ_MEETS_SHARING);
}

/* ---- What is held. */
#define HANDLES (KZ_KIND(KZ_READ_HANDLE) | KZ_KIND(KZ_READ_WRITE_HANDLE))

BOOLEAN FltOplockIsFastIoPossible(POPLOCK Oplock)
{
    KZ_CALL();
    return kz_lets_fast_by(oplock_of(Oplock));
}

BOOLEAN FltCurrentBatchOplock(POPLOCK Oplock)
{
    KZ_CALL();
    return kz_has_oplock(oplock_of(Oplock), KZ_BATCH_KINDS);
}

BOOLEAN FltCurrentOplock(POPLOCK Oplock)
{
    KZ_CALL();
    return kz_has_oplock(oplock_of(Oplock), KZ_ALL_KINDS);
}

BOOLEAN FltCurrentOplockH(POPLOCK Oplock)
{
    KZ_CALL();
    return kz_has_oplock(oplock_of(Oplock), HANDLES);
}

BOOLEAN FltOplockIsSharedRequest(PFLT_CALLBACK_DATA CallbackData)
{
    KZ_INSIDE();
    kz_uses_all();
    const FLT_PARAMETERS *now = &CallbackData->Iopb->Parameters;
    ULONG code = now->FileSystemControl.Common.FsControlCode;
    const REQUEST_OPLOCK_INPUT_BUFFER *input = now->FileSystemControl.Buffered.SystemBuffer;
    if (CallbackData->Iopb->MajorFunction != IRP_MJ_FILE_SYSTEM_CONTROL || (code == FSCTL_REQUEST_OPLOCK && now->FileSystemControl.Common.InputBufferLength < sizeof *input))
        return FALSE;
    return kz_is_shared_oplock(kz_oplock_asked(code, input));
}

BOOLEAN FltOplockKeysEqual(PFILE_OBJECT Fo1, PFILE_OBJECT Fo2)
{
    KZ_INSIDE();
    kz_uses_all();
    const KzFile *first = kz_file_with(Fo1), *second = kz_file_with(Fo2);
    const KzOplockSide one = {Fo1, first && first->has_oplock_key ? &first->oplock_key : NULL, 0, 0}, other = {Fo2, second && second->has_oplock_key ? &second->oplock_key : NULL, 0, 0};
    return Fo1 && Fo2 && kz_have_same_key(&one, &other);
}

/* Its filter let it go by itself. */
static void forget_op(KzOp *op)
{
    Waits *one = *wait_of(op);
    for (const Own *own = kz.ownoplock->first; own; own = own->next) {
        kz_forget_request(own->oplock, op);
        if (own->oplock)
            kz_wait_no_more(own->oplock, op);
    }
    if (!one)
        return;
    kz_wait_no_more(one->oplock, one);
    forget_wait(one);
}

const KzModule kz_own_oplock_module = {KZ_STATE(ownoplock), .free = free_owns, .operation_ends = forget_op};
