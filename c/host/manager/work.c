/* Work items. A routine runs once the request is answered, or as soon as something waits, one after the other, in the system's process.
 *
 * In the manager it is a callback of its instance: the question whether that may be detached, which is refused behind it. So it holds references, and completes what
 * its instance holds, as any callback does. A routine on a filter, or on an instance that isn't attached, runs in no callback of the manager. */
#include "manager/work.h"

#include "core/client.h"
#include "core/memory.h"
#include "core/module.h"
#include "core/op.h"
#include "core/piece.h"
#include "core/place.h"
#include "core/state.h"
#include "core/told.h"
#include "manager/hand.h"
#include "manager/filter.h"
#include "manager/instance.h"
#include "manager/operation.h"

#include <stdlib.h>

typedef enum { GENERIC, DEFERRED, DEVICE, SYSTEM } Kind;

/* A driver's item is this; a system's item is the driver's own memory, which one of these stands for. */
struct _FLT_GENERIC_WORKITEM {
    PFLT_GENERIC_WORKITEM next;
    Kind kind;
    bool is_queued;
    PVOID object, context, item;
    PFLT_FILTER filter;
    PVOID routine;
    KzPlace place; /* where it was queued */
};

struct KzWorkState {
    PFLT_GENERIC_WORKITEM first, *end; /* NULL while none is queued */
    unsigned running;
};

static PVOID allocate(ULONG tag)
{
    return ExAllocatePoolZero(NonPagedPool, sizeof(struct _FLT_GENERIC_WORKITEM), tag);
}

static void free_item(PFLT_GENERIC_WORKITEM item, const char *call)
{
    KzPiece *piece = kz_piece_of(item);
    if (!piece || piece->kind != KZK_POOL || piece->size != sizeof *item)
        kz_tell(KZM_NO_POOL, call, "no work item (freed twice?)");
    else if (item->is_queued)
        kz_tell(KZM_WORK_LEFT, call, "a work item that is queued");
    else
        kz_give_back(item);
}

/* The instance that a work item is of: its teardown isn't over before the work item is. NULL if it is of none. */
static PFLT_INSTANCE instance_of(const struct _FLT_GENERIC_WORKITEM *item)
{
    return item->kind <= DEFERRED && kz_is_instance(item->object) ? item->object : NULL;
}

static void enqueue(PFLT_GENERIC_WORKITEM item)
{
    if (instance_of(item))
        instance_of(item)->items++;
    item->next = NULL;
    item->is_queued = true;
    *(kz.work->end ? kz.work->end : &kz.work->first) = item;
    kz.work->end = &item->next;
    kz_scheduler->touch(item, 0, KZT_GIVES);
}

/* From the teardown's start on none is queued: the teardown waits for those that are there. */
static bool is_torn_down(PVOID object)
{
    return kz_is_instance(object) && kz_phase(object) >= KZP_INSTANCE_STOPPING;
}

static NTSTATUS queue(PFLT_GENERIC_WORKITEM item, Kind kind, PVOID object, PVOID routine, PVOID context, const char *call)
{
    if (item->is_queued) {
        kz_tell(KZM_WORK_LEFT, call, "a work item that is queued already");
        return STATUS_INVALID_PARAMETER;
    }
    *item = (struct _FLT_GENERIC_WORKITEM){NULL, kind, false, object, context, item, kz_me->place.filter, routine, kz_me->place};
    enqueue(item);
    return STATUS_SUCCESS;
}

PFLT_GENERIC_WORKITEM FltAllocateGenericWorkItem(VOID)
{
    KZ_INSIDE_ALONE();
    return allocate('wgMF');
}

VOID FltFreeGenericWorkItem(PFLT_GENERIC_WORKITEM FltWorkItem)
{
    KZ_CALL();
    free_item(FltWorkItem, __func__);
}

NTSTATUS FltQueueGenericWorkItem(PFLT_GENERIC_WORKITEM FltWorkItem, PVOID FltObject, PFLT_GENERIC_WORKITEM_ROUTINE WorkerRoutine, WORK_QUEUE_TYPE QueueType,
                                 PVOID Context)
{
    KZ_CALL();
    (void)QueueType;
    if (!kz_is_instance(FltObject) && !kz_is_filter(FltObject)) {
        kz_tell(KZM_NO_FILTER_OBJECT, __func__, "neither a filter nor an instance");
        return STATUS_INVALID_PARAMETER;
    }
    if (kz_is_instance(FltObject) && !kz_may_use(__func__, FltObject))
        return STATUS_FLT_DELETING_OBJECT;
    if (is_torn_down(FltObject))
        return STATUS_FLT_DELETING_OBJECT;
    return queue(FltWorkItem, GENERIC, FltObject, (PVOID)WorkerRoutine, Context, __func__);
}

PFLT_DEFERRED_IO_WORKITEM FltAllocateDeferredIoWorkItem(VOID)
{
    KZ_INSIDE_ALONE();
    return allocate('wdMF');
}

VOID FltFreeDeferredIoWorkItem(PFLT_DEFERRED_IO_WORKITEM FltWorkItem)
{
    KZ_CALL();
    free_item((PFLT_GENERIC_WORKITEM)FltWorkItem, __func__);
}

/* A work item may wait for the pages that paging I/O brings, and what no request carries can't wait for one. */
static bool is_safe_to_post(PFLT_CALLBACK_DATA data)
{
    return data->Flags & FLTFL_CALLBACK_DATA_IRP_OPERATION && !(data->Iopb->IrpFlags & IRP_PAGING_IO);
}

NTSTATUS FltQueueDeferredIoWorkItem(PFLT_DEFERRED_IO_WORKITEM FltWorkItem, PFLT_CALLBACK_DATA Data, PFLT_DEFERRED_IO_WORKITEM_ROUTINE WorkerRoutine,
                                    WORK_QUEUE_TYPE QueueType, PVOID Context)
{
    KZ_CALL();
    (void)QueueType;
    KzOp *op = kz_op_with(Data);
    if (!op) {
        kz_tell(KZM_NOT_OWN_DATA, __func__, "callback data of no operation");
        return STATUS_INVALID_PARAMETER;
    }
    if (!is_safe_to_post(Data))
        return STATUS_FLT_NOT_SAFE_TO_POST_OPERATION;
    if (is_torn_down(Data->Iopb->TargetInstance))
        return STATUS_FLT_DELETING_OBJECT;
    PFLT_GENERIC_WORKITEM item = (PFLT_GENERIC_WORKITEM)FltWorkItem;
    NTSTATUS status = queue(item, DEFERRED, Data->Iopb->TargetInstance, (PVOID)WorkerRoutine, Context, __func__);
    item->item = Data;
    return status;
}

PIO_WORKITEM IoAllocateWorkItem(PDEVICE_OBJECT DeviceObject)
{
    KZ_INSIDE_ALONE();
    PFLT_GENERIC_WORKITEM made = allocate('wiO ');
    if (made)
        made->object = DeviceObject;
    return (PIO_WORKITEM)made;
}

VOID IoFreeWorkItem(PIO_WORKITEM IoWorkItem)
{
    KZ_CALL();
    free_item((PFLT_GENERIC_WORKITEM)IoWorkItem, __func__);
}

VOID IoQueueWorkItem(PIO_WORKITEM IoWorkItem, PIO_WORKITEM_ROUTINE WorkerRoutine, WORK_QUEUE_TYPE QueueType, PVOID Context)
{
    KZ_CALL();
    (void)QueueType;
    PFLT_GENERIC_WORKITEM item = (PFLT_GENERIC_WORKITEM)IoWorkItem;
    queue(item, DEVICE, item->object, (PVOID)WorkerRoutine, Context, __func__);
}

VOID ExQueueWorkItem(PWORK_QUEUE_ITEM WorkItem, WORK_QUEUE_TYPE QueueType)
{
    KZ_CALL();
    (void)QueueType;
    for (PFLT_GENERIC_WORKITEM one = kz.work->first; one; one = one->next)
        if (one->kind == SYSTEM && one->item == WorkItem) {
            kz_tell_of(WorkItem, KZM_WORK_LEFT, __func__, "a work item that is queued already");
            return;
        }
    PFLT_GENERIC_WORKITEM made = kz_memory(sizeof *made);
    queue(made, SYSTEM, NULL, (PVOID)WorkItem->WorkerRoutine, WorkItem->Parameter, __func__);
    made->item = WorkItem;
}

static void call(PFLT_GENERIC_WORKITEM item)
{
    struct _FLT_GENERIC_WORKITEM one = *item;
    kz_scheduler->touch(item, 0, KZT_TAKES);
    if (one.kind == SYSTEM)
        free(item);
    if (one.kind == GENERIC)
        KZ_CALL_DRIVER(((PFLT_GENERIC_WORKITEM_ROUTINE)one.routine), item, one.object, one.context);
    else if (one.kind == DEFERRED)
        KZ_CALL_DRIVER(((PFLT_DEFERRED_IO_WORKITEM_ROUTINE)one.routine), (PFLT_DEFERRED_IO_WORKITEM)item, one.item, one.context);
    else if (one.kind == DEVICE)
        KZ_CALL_DRIVER(((PIO_WORKITEM_ROUTINE)one.routine), one.object, one.context);
    else
        KZ_CALL_DRIVER(((PWORKER_THREAD_ROUTINE)one.routine), one.context);
}

static void run(PFLT_GENERIC_WORKITEM item)
{
    PFLT_INSTANCE instance = instance_of(item);
    uint64_t process = kz_me->process, thread = kz_me->thread;
    uint8_t worker = kz_helper();
    kz_me->process = 4;
    kz_me->thread = 8;
    KzPlace before = kz_enter(KZ_IN_WORK, worker, item->filter, instance, NULL, NULL);
    kz_call_at(PASSIVE_LEVEL);
    bool is_inside = instance && kz_enter_routine(instance, NULL, worker);
    item->is_queued = false;
    kz.work->running++;
    unsigned depth = kz_let_driver("work item", item->routine);
    call(item);
    kz_driver_returned(depth, "work item returns");
    kz.work->running--;
    if (instance) {
        instance->items--;
        kz_scheduler->touch(&instance->items, 0, KZT_GIVES);
    }
    kz.changes++;
    kz_keep_rest(NULL);
    kz_leave(before);
    kz_me->process = process;
    kz_me->thread = thread;
    if (is_inside)
        kz_leave_routine(worker);
    kz_helped(worker);
}

/* Whether one is queued, or runs. */
static bool has_work_of(PFLT_FILTER filter)
{
    for (PFLT_GENERIC_WORKITEM one = kz.work->first; one; one = one->next)
        if (one->filter == filter)
            return true;
    return kz.work->running > 0;
}

bool kz_has_work(void)
{
    return kz.work->first != NULL;
}

/* Runs the next work item; false if there is none. */
bool kz_work(void)
{
    PFLT_GENERIC_WORKITEM item = kz.work->first;
    if (!item)
        return false;
    kz.work->first = item->next;
    if (!kz.work->first)
        kz.work->end = NULL;
    run(item);
    return true;
}

static void tell_work(PFLT_FILTER filter)
{
    for (PFLT_GENERIC_WORKITEM one = kz.work->first; one; one = one->next)
        if (one->filter == filter) {
            KzPlace before = kz_enter_again(&one->place);
            kz_tell(KZM_WORK_LEFT, "FltQueueGenericWorkItem", "a work item is queued still: it would run in a driver that is gone");
            kz_me->place = before;
        }
}

static void check_work(const void *memory, size_t size)
{
    for (PFLT_GENERIC_WORKITEM one = kz.work->first; one; one = one->next)
        if (one->kind == SYSTEM && (uintptr_t)one->item - (uintptr_t)memory < size)
            kz_tell_of(one->item, KZM_WORK_LEFT, "ExQueueWorkItem", "a work item that is queued, whose memory is freed");
}

static void free_work(void)
{
    while (kz.work->first) {
        PFLT_GENERIC_WORKITEM one = kz.work->first;
        kz.work->first = one->next;
        if (one->kind == SYSTEM)
            free(one);
    }
}

const KzModule kz_work_module = {KZ_STATE(work), .free = free_work, .filter_ends = tell_work, .has_any_of = has_work_of, .memory_goes = check_work, .goes_on = kz_work};
