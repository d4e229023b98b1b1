/* A filter's queue of operations that it pended: the filter's own callbacks keep it. One that is cancelled leaves it (cancel.c). */
#include "kit/queue.h"

#include "core/client.h"
#include "core/op.h"
#include "core/told.h"
#include "manager/instance.h"
#include "manager/operation.h"

NTSTATUS FltCbdqInitialize(PFLT_INSTANCE Instance, PFLT_CALLBACK_DATA_QUEUE Cbdq, PFLT_CALLBACK_DATA_QUEUE_INSERT_IO CbdqInsertIo,
                           PFLT_CALLBACK_DATA_QUEUE_REMOVE_IO CbdqRemoveIo, PFLT_CALLBACK_DATA_QUEUE_PEEK_NEXT_IO CbdqPeekNextIo,
                           PFLT_CALLBACK_DATA_QUEUE_ACQUIRE CbdqAcquire, PFLT_CALLBACK_DATA_QUEUE_RELEASE CbdqRelease,
                           PFLT_CALLBACK_DATA_QUEUE_COMPLETE_CANCELED_IO CbdqCompleteCanceledIo)
{
    kz_uses_all();
    *Cbdq = (FLT_CALLBACK_DATA_QUEUE){
        .Flags = FLTFL_CALLBACK_DATA_QUEUE_VALID,
        .Instance = Instance,
        .InsertIo = CbdqInsertIo,
        .RemoveIo = CbdqRemoveIo,
        .PeekNextIo = CbdqPeekNextIo,
        .Acquire = CbdqAcquire,
        .Release = CbdqRelease,
        .CompleteCanceledIo = CbdqCompleteCanceledIo,
    };
    return STATUS_SUCCESS;
}

/* Whether it was initialized, and its instance is there still. */
static bool is_made(PFLT_CALLBACK_DATA_QUEUE queue, const char *call, const void *from)
{
    KZ_CALL_FROM(call, from);
    kz_uses_little();
    kz_scheduler->uses(&queue->Flags, KZU_READS);
    if (!(queue->Flags & FLTFL_CALLBACK_DATA_QUEUE_VALID) || !queue->Acquire)
        kz_tell_of(queue, KZM_NEVER_MADE, call, "a queue that was never initialized");
    return queue->Acquire && kz_may_use(call, queue->Instance);
}

/* Of an operation that is in a queue, or was: who cancels it looks there as well. */
static void use_queued(const KzOp *op)
{
    kz_uses_little();
    kz_scheduler->uses(&op->cancel, KZU_WRITES);
}

static void use_context(PFLT_CALLBACK_DATA_QUEUE_IO_CONTEXT context)
{
    if (context)
        kz_uses_bytes(context, sizeof *context, KZU_WRITES);
}

/* The operation is in the queue from here on. */
static void enter_queue(PFLT_CALLBACK_DATA_QUEUE queue, PFLT_CALLBACK_DATA data, PFLT_CALLBACK_DATA_QUEUE_IO_CONTEXT context)
{
    KZ_INSIDE();
    KzOp *op = kz_op_with(data);
    if (!op)
        return;
    use_queued(op);
    op->cancel.queue = queue;
    op->cancel.context = context;
}

void kz_leave_queue(PFLT_CALLBACK_DATA data)
{
    KZ_INSIDE();
    KzOp *op = kz_op_with(data);
    if (op)
        use_queued(op);
    if (op && op->cancel.context)
        use_context(op->cancel.context);
    if (op && op->cancel.context)
        op->cancel.context->Cbd = NULL;
    if (op) {
        op->cancel.queue = NULL;
        op->cancel.context = NULL;
    }
}

VOID FltCbdqEnable(PFLT_CALLBACK_DATA_QUEUE Cbdq)
{
    KZ_CALL_ALONE();
    kz_scheduler->uses(&Cbdq->Flags, KZU_WRITES);
    __atomic_and_fetch(&Cbdq->Flags, ~FLTFL_CALLBACK_DATA_QUEUE_DISABLED, __ATOMIC_SEQ_CST);
}

VOID FltCbdqDisable(PFLT_CALLBACK_DATA_QUEUE Cbdq)
{
    KZ_CALL_ALONE();
    kz_scheduler->uses(&Cbdq->Flags, KZU_WRITES);
    __atomic_or_fetch(&Cbdq->Flags, FLTFL_CALLBACK_DATA_QUEUE_DISABLED, __ATOMIC_SEQ_CST);
}

NTSTATUS FltCbdqInsertIo(PFLT_CALLBACK_DATA_QUEUE Cbdq, PFLT_CALLBACK_DATA Cbd, PFLT_CALLBACK_DATA_QUEUE_IO_CONTEXT Context, PVOID InsertContext)
{
    KIRQL irql = 0;
    if (!is_made(Cbdq, __func__, KZ_CALLER()))
        return STATUS_FLT_CBDQ_DISABLED;
    KZ_CALL_DRIVER(Cbdq->Acquire, Cbdq, &irql);
    use_context(Context);
    kz_scheduler->uses(&Cbdq->Flags, KZU_READS);
    bool is_disabled = __atomic_load_n(&Cbdq->Flags, __ATOMIC_SEQ_CST) & FLTFL_CALLBACK_DATA_QUEUE_DISABLED;
    NTSTATUS status = is_disabled ? STATUS_FLT_CBDQ_DISABLED : KZ_CALL_DRIVER(Cbdq->InsertIo, Cbdq, Cbd, InsertContext);
    if (Context)
        Context->Cbd = NT_SUCCESS(status) ? Cbd : NULL;
    if (NT_SUCCESS(status))
        enter_queue(Cbdq, Cbd, Context);
    KZ_CALL_DRIVER(Cbdq->Release, Cbdq, irql);
    return status;
}

PFLT_CALLBACK_DATA FltCbdqRemoveNextIo(PFLT_CALLBACK_DATA_QUEUE Cbdq, PVOID PeekContext)
{
    KIRQL irql = 0;
    if (!is_made(Cbdq, __func__, KZ_CALLER()))
        return NULL;
    KZ_CALL_DRIVER(Cbdq->Acquire, Cbdq, &irql);
    PFLT_CALLBACK_DATA next = KZ_CALL_DRIVER(Cbdq->PeekNextIo, Cbdq, NULL, PeekContext);
    if (next) {
        KZ_CALL_DRIVER(Cbdq->RemoveIo, Cbdq, next);
        kz_leave_queue(next);
    }
    KZ_CALL_DRIVER(Cbdq->Release, Cbdq, irql);
    return next;
}

PFLT_CALLBACK_DATA FltCbdqRemoveIo(PFLT_CALLBACK_DATA_QUEUE Cbdq, PFLT_CALLBACK_DATA_QUEUE_IO_CONTEXT Context)
{
    KIRQL irql = 0;
    if (!is_made(Cbdq, __func__, KZ_CALLER()))
        return NULL;
    KZ_CALL_DRIVER(Cbdq->Acquire, Cbdq, &irql);
    use_context(Context);
    PFLT_CALLBACK_DATA found = Context->Cbd;
    if (found) {
        KZ_CALL_DRIVER(Cbdq->RemoveIo, Cbdq, found);
        kz_leave_queue(found);
        Context->Cbd = NULL;
    }
    KZ_CALL_DRIVER(Cbdq->Release, Cbdq, irql);
    return found;
}
