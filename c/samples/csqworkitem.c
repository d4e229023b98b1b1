/* A cancel-safe queue with a work item: reads are pended in the order in which they came, and a work item of the instance completes them, each with what it looked at
 * meanwhile. The first read that comes into an empty queue starts the work item. A teardown disables the queue, completes what is left, and wakes the work item. */
#include <fltKernel.h>
#include <dontuse.h>
#include <suppress.h>

#define INSTANCE_CONTEXT_TAG 'IqsC'
#define QUEUE_CONTEXT_TAG 'QqsC'

typedef struct _INSTANCE_CONTEXT {
    PFLT_INSTANCE Instance;
    FLT_CALLBACK_DATA_QUEUE Cbdq;
    LIST_ENTRY QueueHead;
    FAST_MUTEX Lock;
    volatile LONG WorkerThreadFlag;
    KEVENT TeardownEvent;
} INSTANCE_CONTEXT, *PINSTANCE_CONTEXT;

typedef struct _QUEUE_CONTEXT {
    FLT_CALLBACK_DATA_QUEUE_IO_CONTEXT CbdqIoContext;
    LARGE_INTEGER Pended;
} QUEUE_CONTEXT, *PQUEUE_CONTEXT;

static PFLT_FILTER gFilterHandle;
static NPAGED_LOOKASIDE_LIST gQueueContextLookaside;

static VOID CsqWorkItemRoutine(_In_ PFLT_GENERIC_WORKITEM WorkItem, _In_ PVOID FltObject, _In_opt_ PVOID Context);

/* ---- The queue's callbacks. */
_IRQL_requires_max_(APC_LEVEL) _IRQL_raises_(APC_LEVEL) static VOID CsqAcquire(_In_ PFLT_CALLBACK_DATA_QUEUE DataQueue, _Out_ PKIRQL Irql)
{
    *Irql = PASSIVE_LEVEL;
    ExAcquireFastMutex(&CONTAINING_RECORD(DataQueue, INSTANCE_CONTEXT, Cbdq)->Lock);
}

_IRQL_requires_(APC_LEVEL) static VOID CsqRelease(_In_ PFLT_CALLBACK_DATA_QUEUE DataQueue, _In_ KIRQL Irql)
{
    UNREFERENCED_PARAMETER(Irql);
    ExReleaseFastMutex(&CONTAINING_RECORD(DataQueue, INSTANCE_CONTEXT, Cbdq)->Lock);
}

static NTSTATUS CsqInsertIo(_In_ PFLT_CALLBACK_DATA_QUEUE DataQueue, _In_ PFLT_CALLBACK_DATA Data, _In_opt_ PVOID Context)
{
    PINSTANCE_CONTEXT instCtx = CONTAINING_RECORD(DataQueue, INSTANCE_CONTEXT, Cbdq);
    PFLT_GENERIC_WORKITEM workItem;
    BOOLEAN wasQueueEmpty = IsListEmpty(&instCtx->QueueHead);
    NTSTATUS status = STATUS_SUCCESS;

    UNREFERENCED_PARAMETER(Context);

    InsertTailList(&instCtx->QueueHead, &Data->QueueLinks);
    if (wasQueueEmpty && InterlockedIncrement(&instCtx->WorkerThreadFlag) == 1) {
        workItem = FltAllocateGenericWorkItem();
        if (workItem == NULL) {
            status = STATUS_INSUFFICIENT_RESOURCES;
        } else {
            status = FltQueueGenericWorkItem(workItem, instCtx->Instance, CsqWorkItemRoutine, DelayedWorkQueue, NULL);
            if (!NT_SUCCESS(status)) {
                FltFreeGenericWorkItem(workItem);
            }
        }
        if (!NT_SUCCESS(status)) {
            RemoveTailList(&instCtx->QueueHead);
            InterlockedDecrement(&instCtx->WorkerThreadFlag);
        }
    }
    return status;
}

static VOID CsqRemoveIo(_In_ PFLT_CALLBACK_DATA_QUEUE DataQueue, _In_ PFLT_CALLBACK_DATA Data)
{
    UNREFERENCED_PARAMETER(DataQueue);
    RemoveEntryList(&Data->QueueLinks);
}

static PFLT_CALLBACK_DATA CsqPeekNextIo(_In_ PFLT_CALLBACK_DATA_QUEUE DataQueue, _In_opt_ PFLT_CALLBACK_DATA Data, _In_opt_ PVOID PeekContext)
{
    PINSTANCE_CONTEXT instCtx = CONTAINING_RECORD(DataQueue, INSTANCE_CONTEXT, Cbdq);
    PLIST_ENTRY next = Data == NULL ? instCtx->QueueHead.Flink : Data->QueueLinks.Flink;

    UNREFERENCED_PARAMETER(PeekContext);

    return next == &instCtx->QueueHead ? NULL : CONTAINING_RECORD(next, FLT_CALLBACK_DATA, QueueLinks);
}

static VOID CsqComplete(_Inout_ PFLT_CALLBACK_DATA Data, _In_ NTSTATUS Status)
{
    PQUEUE_CONTEXT queueCtx = Data->QueueContext[0];

    Data->IoStatus.Status = Status;
    Data->IoStatus.Information = 0;
    FltCompletePendedPreOperation(Data, FLT_PREOP_COMPLETE, NULL);
    ExFreeToNPagedLookasideList(&gQueueContextLookaside, queueCtx);
}

static VOID CsqCompleteCanceledIo(_In_ PFLT_CALLBACK_DATA_QUEUE DataQueue, _Inout_ PFLT_CALLBACK_DATA Data)
{
    UNREFERENCED_PARAMETER(DataQueue);
    CsqComplete(Data, STATUS_CANCELLED);
}

/* ---- The work item. It runs as long as operations come. */
static VOID CsqWorkOnOne(_In_ PFLT_CALLBACK_DATA Data)
{
    PQUEUE_CONTEXT queueCtx = Data->QueueContext[0];
    LARGE_INTEGER now;

    KeQuerySystemTime(&now);
    if (!NT_SUCCESS(FltLockUserBuffer(Data)) || MmGetSystemAddressForMdlSafe(Data->Iopb->Parameters.Read.MdlAddress, NormalPagePriority) == NULL) {
        CsqComplete(Data, STATUS_INSUFFICIENT_RESOURCES);
        return;
    }
    DbgPrint("Csq: process %u reads %u bytes for process %u, after %I64d ms\n", HandleToULong(PsGetCurrentProcessId()), Data->Iopb->Parameters.Read.Length,
             FltGetRequestorProcessId(Data), (now.QuadPart - queueCtx->Pended.QuadPart) / 10000);
    FltCompletePendedPreOperation(Data, FLT_PREOP_SUCCESS_WITH_CALLBACK, NULL);
    ExFreeToNPagedLookasideList(&gQueueContextLookaside, queueCtx);
}

static VOID CsqWorkItemRoutine(_In_ PFLT_GENERIC_WORKITEM WorkItem, _In_ PVOID FltObject, _In_opt_ PVOID Context)
{
    PFLT_INSTANCE instance = FltObject;
    PINSTANCE_CONTEXT instCtx;
    PFLT_CALLBACK_DATA data;
    LARGE_INTEGER delay;

    UNREFERENCED_PARAMETER(Context);

    if (!NT_SUCCESS(FltGetInstanceContext(instance, (PFLT_CONTEXT *)&instCtx))) {
        FltFreeGenericWorkItem(WorkItem);
        return;
    }
    do {
        /* A little while for each, unless the instance goes. */
        delay.QuadPart = -2 * 10000;
        KeWaitForSingleObject(&instCtx->TeardownEvent, Executive, KernelMode, FALSE, &delay);
        data = FltCbdqRemoveNextIo(&instCtx->Cbdq, NULL);
        if (data != NULL) {
            CsqWorkOnOne(data);
        }
    } while (data != NULL || InterlockedDecrement(&instCtx->WorkerThreadFlag) > 0);
    FltReleaseContext(instCtx);
    FltFreeGenericWorkItem(WorkItem);
}

/* ---- The filter's callbacks. */
static FLT_PREOP_CALLBACK_STATUS PreRead(_Inout_ PFLT_CALLBACK_DATA Data, _In_ PCFLT_RELATED_OBJECTS FltObjects,
                                         _Flt_CompletionContext_Outptr_ PVOID *CompletionContext)
{
    FLT_PREOP_CALLBACK_STATUS returnStatus = FLT_PREOP_SUCCESS_NO_CALLBACK;
    PINSTANCE_CONTEXT instCtx;
    PQUEUE_CONTEXT queueCtx;

    UNREFERENCED_PARAMETER(CompletionContext);

    if (!FLT_IS_IRP_OPERATION(Data)) {
        return FLT_PREOP_DISALLOW_FASTIO;
    }
    if (Data->Iopb->Parameters.Read.Length == 0 || IoGetTopLevelIrp() != NULL || FlagOn(Data->Iopb->IrpFlags, IRP_PAGING_IO) ||
        !NT_SUCCESS(FltGetInstanceContext(FltObjects->Instance, (PFLT_CONTEXT *)&instCtx))) {
        return FLT_PREOP_SUCCESS_NO_CALLBACK;
    }
    queueCtx = ExAllocateFromNPagedLookasideList(&gQueueContextLookaside);
    if (queueCtx != NULL) {
        RtlZeroMemory(queueCtx, sizeof(QUEUE_CONTEXT));
        KeQuerySystemTime(&queueCtx->Pended);
        Data->QueueContext[0] = queueCtx;
        Data->QueueContext[1] = NULL;
        if (NT_SUCCESS(FltCbdqInsertIo(&instCtx->Cbdq, Data, &queueCtx->CbdqIoContext, NULL))) {
            returnStatus = FLT_PREOP_PENDING;
        } else {
            ExFreeToNPagedLookasideList(&gQueueContextLookaside, queueCtx);
        }
    }
    FltReleaseContext(instCtx);
    return returnStatus;
}

static FLT_POSTOP_CALLBACK_STATUS PostRead(_Inout_ PFLT_CALLBACK_DATA Data, _In_ PCFLT_RELATED_OBJECTS FltObjects, _In_opt_ PVOID CompletionContext,
                                           _In_ FLT_POST_OPERATION_FLAGS Flags)
{
    UNREFERENCED_PARAMETER(FltObjects);
    UNREFERENCED_PARAMETER(CompletionContext);

    if (!FlagOn(Flags, FLTFL_POST_OPERATION_DRAINING)) {
        DbgPrint("Csq: %Iu bytes came\n", Data->IoStatus.Information);
    }
    return FLT_POSTOP_FINISHED_PROCESSING;
}

static NTSTATUS InstanceSetup(_In_ PCFLT_RELATED_OBJECTS FltObjects, _In_ FLT_INSTANCE_SETUP_FLAGS Flags, _In_ DEVICE_TYPE VolumeDeviceType,
                              _In_ FLT_FILESYSTEM_TYPE VolumeFilesystemType)
{
    PINSTANCE_CONTEXT instCtx;
    NTSTATUS status;

    UNREFERENCED_PARAMETER(Flags);
    UNREFERENCED_PARAMETER(VolumeDeviceType);
    UNREFERENCED_PARAMETER(VolumeFilesystemType);

    status = FltAllocateContext(FltObjects->Filter, FLT_INSTANCE_CONTEXT, sizeof(INSTANCE_CONTEXT), NonPagedPoolNx, (PFLT_CONTEXT *)&instCtx);
    if (!NT_SUCCESS(status)) {
        return status;
    }
    instCtx->Instance = FltObjects->Instance;
    instCtx->WorkerThreadFlag = 0;
    InitializeListHead(&instCtx->QueueHead);
    ExInitializeFastMutex(&instCtx->Lock);
    KeInitializeEvent(&instCtx->TeardownEvent, NotificationEvent, FALSE);
    status = FltCbdqInitialize(FltObjects->Instance, &instCtx->Cbdq, CsqInsertIo, CsqRemoveIo, CsqPeekNextIo, CsqAcquire, CsqRelease, CsqCompleteCanceledIo);
    if (NT_SUCCESS(status)) {
        status = FltSetInstanceContext(FltObjects->Instance, FLT_SET_CONTEXT_KEEP_IF_EXISTS, instCtx, NULL);
    }
    FltReleaseContext(instCtx);
    return status;
}

static NTSTATUS InstanceQueryTeardown(_In_ PCFLT_RELATED_OBJECTS FltObjects, _In_ FLT_INSTANCE_QUERY_TEARDOWN_FLAGS Flags)
{
    UNREFERENCED_PARAMETER(FltObjects);
    UNREFERENCED_PARAMETER(Flags);
    return STATUS_SUCCESS;
}

static VOID InstanceTeardownStart(_In_ PCFLT_RELATED_OBJECTS FltObjects, _In_ FLT_INSTANCE_TEARDOWN_FLAGS Reason)
{
    PINSTANCE_CONTEXT instCtx;
    PFLT_CALLBACK_DATA pended;

    UNREFERENCED_PARAMETER(Reason);

    if (!NT_SUCCESS(FltGetInstanceContext(FltObjects->Instance, (PFLT_CONTEXT *)&instCtx))) {
        return;
    }
    FltCbdqDisable(&instCtx->Cbdq);
    while ((pended = FltCbdqRemoveNextIo(&instCtx->Cbdq, NULL)) != NULL) {
        CsqComplete(pended, STATUS_CANCELLED);
    }
    KeSetEvent(&instCtx->TeardownEvent, IO_NO_INCREMENT, FALSE);
    FltReleaseContext(instCtx);
}

static NTSTATUS Unload(_In_ FLT_FILTER_UNLOAD_FLAGS Flags)
{
    UNREFERENCED_PARAMETER(Flags);

    FltUnregisterFilter(gFilterHandle);
    ExDeleteNPagedLookasideList(&gQueueContextLookaside);
    return STATUS_SUCCESS;
}

CONST FLT_OPERATION_REGISTRATION Callbacks[] = {{IRP_MJ_READ, FLTFL_OPERATION_REGISTRATION_SKIP_PAGING_IO, PreRead, PostRead}, {IRP_MJ_OPERATION_END}};

CONST FLT_CONTEXT_REGISTRATION ContextRegistration[] = {{FLT_INSTANCE_CONTEXT, 0, NULL, sizeof(INSTANCE_CONTEXT), INSTANCE_CONTEXT_TAG}, {FLT_CONTEXT_END}};

CONST FLT_REGISTRATION FilterRegistration = {sizeof(FLT_REGISTRATION), FLT_REGISTRATION_VERSION, 0,    ContextRegistration,   Callbacks, Unload,
                                             InstanceSetup,            InstanceQueryTeardown,    InstanceTeardownStart, NULL};

NTSTATUS DriverEntry(_In_ PDRIVER_OBJECT DriverObject, _In_ PUNICODE_STRING RegistryPath)
{
    NTSTATUS status;

    UNREFERENCED_PARAMETER(RegistryPath);

    ExInitializeNPagedLookasideList(&gQueueContextLookaside, NULL, NULL, POOL_NX_ALLOCATION, sizeof(QUEUE_CONTEXT), QUEUE_CONTEXT_TAG, 0);
    status = FltRegisterFilter(DriverObject, &FilterRegistration, &gFilterHandle);
    if (NT_SUCCESS(status)) {
        status = FltStartFiltering(gFilterHandle);
        if (!NT_SUCCESS(status)) {
            FltUnregisterFilter(gFilterHandle);
        }
    }
    if (!NT_SUCCESS(status)) {
        ExDeleteNPagedLookasideList(&gQueueContextLookaside);
    }
    return status;
}
