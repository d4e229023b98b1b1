/* Cancelling: a request's own, or that of a process that ends. Of an operation that a filter holds the queue's routine is called, or the one that the filter has set; who set none isn't told. */
#include "kit/cancel.h"

#include "core/client.h"
#include "core/op.h"
#include "core/place.h"
#include "core/state.h"
#include "core/told.h"
#include "filesystem/oplocks.h"
#include "filesystem/waiting.h"
#include "manager/below.h"
#include "manager/hand.h"
#include "manager/operation.h"
#include "kit/queue.h"

BOOLEAN FltIsIoCanceled(PFLT_CALLBACK_DATA CallbackData)
{
    KZ_CALL();
    const KzOp *op = kz_op_with(CallbackData);
    return op && op->cancel.is_asked;
}

static KzOp *held_op(PFLT_CALLBACK_DATA data, const char *call)
{
    KzOp *op = kz_op_with(data);
    if (op && (op->stage == KZ_IN_PREOPERATION || op->stage == KZ_HELD_BY_PRE))
        return op;
    kz_tell(KZM_NOT_OWN_DATA, call, "callback data of no operation that a preoperation holds or is about to hold");
    return NULL;
}

NTSTATUS FltSetCancelCompletion(PFLT_CALLBACK_DATA CallbackData, VOID (*CanceledCallback)(PFLT_CALLBACK_DATA CallbackData))
{
    KZ_CALL();
    KzOp *op = held_op(CallbackData, __func__);
    if (!op)
        return STATUS_INVALID_PARAMETER;
    if (op->cancel.is_asked)
        return STATUS_CANCELLED;
    op->cancel.routine = CanceledCallback;
    kz_scheduler->touch(&op->cancel, 0, KZT_GIVES);
    return STATUS_SUCCESS;
}

NTSTATUS FltClearCancelCompletion(PFLT_CALLBACK_DATA CallbackData)
{
    KZ_CALL();
    KzOp *op = held_op(CallbackData, __func__);
    if (!op)
        return STATUS_INVALID_PARAMETER;
    op->cancel.routine = NULL;
    return op->cancel.is_asked ? STATUS_CANCELLED : STATUS_SUCCESS;
}

/* ---- A queue's operation leaves it, if it is there still. It may be gone meanwhile. */
static bool is_in_queue(PFLT_CALLBACK_DATA_QUEUE queue, PFLT_CALLBACK_DATA data)
{
    KZ_INSIDE();
    const KzOp *op = kz_op_with(data);
    return op && op->cancel.queue == queue;
}

static bool leaves_queue(PFLT_CALLBACK_DATA_QUEUE queue, PFLT_CALLBACK_DATA data)
{
    KIRQL irql = 0;
    KZ_CALL_DRIVER(queue->Acquire, queue, &irql);
    bool is_there = is_in_queue(queue, data);
    if (is_there) {
        KZ_CALL_DRIVER(queue->RemoveIo, queue, data);
        kz_leave_queue(data);
    }
    KZ_CALL_DRIVER(queue->Release, queue, irql);
    return is_there;
}

/* The routine is called in a place of its own, by whoever cancels. */
static void call_routine(KzOp *op)
{
    PFLT_INSTANCE instance = op->holder ? op->holder : op->iopb->TargetInstance;
    PFLT_CALLBACK_DATA data = op->data;
    PFLT_CALLBACK_DATA_QUEUE queue = op->cancel.queue;
    VOID (*routine)(PFLT_CALLBACK_DATA) = op->cancel.routine;
    uint8_t worker = kz_helper();
    KzPlace before = kz_enter(KZ_IN_CANCEL, worker, instance->filter, instance, NULL, NULL);
    op->cancel.routine = NULL;
    kz_scheduler->touch(&op->cancel, 0, KZT_TAKES);
    unsigned depth = kz_let_driver("cancel", queue ? (PVOID)queue->CompleteCanceledIo : (PVOID)routine);
    if (queue && leaves_queue(queue, data))
        KZ_CALL_DRIVER(queue->CompleteCanceledIo, queue, data);
    else if (!queue)
        KZ_CALL_DRIVER(routine, data);
    kz_driver_returned(depth, "cancel returns");
    kz_keep_rest(NULL);
    kz_leave(before);
    kz_helped(worker);
}

void kz_cancel_op(KzOp *op)
{
    if (op->cancel.is_asked)
        return;
    op->cancel.is_asked = true;
    if (op->cancel.queue || op->cancel.routine)
        call_routine(op);
    else if (op->cancel.host)
        op->cancel.host(op);
    else if (op->is_waiting && !kz_cancel_oplock_of(op))
        kz_cancel_waiting(op);
}

/* A filter cancels what it began by itself. */
BOOLEAN FltCancelIo(PFLT_CALLBACK_DATA CallbackData)
{
    KZ_CALL();
    KzOp *op = kz_own_op(CallbackData);
    if (!op)
        return FALSE;
    bool is_held = op->cancel.queue || op->cancel.routine;
    kz_cancel_op(op);
    return is_held;
}

/* ---- By requests. `held` is the first one that a filter holds, or that waits in the file system. */
static bool is_stopped(const KzOp *op)
{
    return kz_is_held(op) || op->is_waiting;
}

uint32_t kz_cancel(bool is_first, uint64_t number)
{
    for (KzOp *op = kz.ops; op; op = op->next)
        if (is_stopped(op) && (is_first || op->id == number)) {
            kz_cancel_op(op);
            return KZS_OK;
        }
    return KZS_NOT_PENDED;
}

static KzOp *held_of(uint64_t process)
{
    for (KzOp *op = kz.ops; op; op = op->next)
        if (is_stopped(op) && !op->cancel.is_asked && HandleToULong(PsGetThreadProcessId(op->thread)) == process)
            return op;
    return NULL;
}

/* As a process ends. */
void kz_cancel_of(uint64_t process)
{
    for (KzOp *op = held_of(process); op; op = held_of(process))
        kz_cancel_op(op);
}
