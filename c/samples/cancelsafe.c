/* Pends reads of programs in a queue, in the order in which they came, and lets them go on when the file's data is flushed. It holds the postoperation of a query of the
 * size in the same way. At the teardown of its instance it completes what is left. */
#include <fltKernel.h>

typedef struct _INSTANCE_CONTEXT {
    FLT_CALLBACK_DATA_QUEUE Cbdq;
    LIST_ENTRY QueueHead;
    FAST_MUTEX Lock;
    PFLT_CALLBACK_DATA Held; /* under the lock, as the next one is */
    BOOLEAN IsLeaving;
} INSTANCE_CONTEXT, *PINSTANCE_CONTEXT;

#define INSTANCE_TAG 'iqSC'

PFLT_FILTER gFilterHandle;

/* The queue's callbacks: a list, in the order in which the operations came. */
static VOID CsqAcquire(_In_ PFLT_CALLBACK_DATA_QUEUE DataQueue, _Out_ PKIRQL Irql)
{
    UNREFERENCED_PARAMETER(Irql);
    ExAcquireFastMutex(&CONTAINING_RECORD(DataQueue, INSTANCE_CONTEXT, Cbdq)->Lock);
}

static VOID CsqRelease(_In_ PFLT_CALLBACK_DATA_QUEUE DataQueue, _In_ KIRQL Irql)
{
    UNREFERENCED_PARAMETER(Irql);
    ExReleaseFastMutex(&CONTAINING_RECORD(DataQueue, INSTANCE_CONTEXT, Cbdq)->Lock);
}

static NTSTATUS CsqInsertIo(_In_ PFLT_CALLBACK_DATA_QUEUE DataQueue, _In_ PFLT_CALLBACK_DATA Data, _In_opt_ PVOID Context)
{
    UNREFERENCED_PARAMETER(Context);
    InsertTailList(&CONTAINING_RECORD(DataQueue, INSTANCE_CONTEXT, Cbdq)->QueueHead, &Data->QueueLinks);
    return STATUS_SUCCESS;
}

static VOID CsqRemoveIo(_In_ PFLT_CALLBACK_DATA_QUEUE DataQueue, _In_ PFLT_CALLBACK_DATA Data)
{
    UNREFERENCED_PARAMETER(DataQueue);
    RemoveEntryList(&Data->QueueLinks);
}

static PFLT_CALLBACK_DATA CsqPeekNextIo(_In_ PFLT_CALLBACK_DATA_QUEUE DataQueue, _In_opt_ PFLT_CALLBACK_DATA Data, _In_opt_ PVOID PeekContext)
{
    PINSTANCE_CONTEXT instCtx = CONTAINING_RECORD(DataQueue, INSTANCE_CONTEXT, Cbdq);
    PLIST_ENTRY next = Data == NULL ? instCtx->QueueHead.Flink : Data->QueueLinks.Flink;

    UNREFERENCED_PARAMETER(PeekContext);

    return next == &instCtx->QueueHead ? NULL : CONTAINING_RECORD(next, FLT_CALLBACK_DATA, QueueLinks);
}

static VOID CsqCompleteCanceledIo(_In_ PFLT_CALLBACK_DATA_QUEUE DataQueue, _Inout_ PFLT_CALLBACK_DATA Data)
{
    UNREFERENCED_PARAMETER(DataQueue);
    Data->IoStatus.Status = STATUS_CANCELLED;
    Data->IoStatus.Information = 0;
    FltCompletePendedPreOperation(Data, FLT_PREOP_COMPLETE, NULL);
}

static NTSTATUS InstanceSetup(_In_ PCFLT_RELATED_OBJECTS FltObjects, _In_ FLT_INSTANCE_SETUP_FLAGS Flags, _In_ DEVICE_TYPE VolumeDeviceType,
                              _In_ FLT_FILESYSTEM_TYPE VolumeFilesystemType)
{
    PINSTANCE_CONTEXT instCtx;
    NTSTATUS status;

    UNREFERENCED_PARAMETER(Flags);
    UNREFERENCED_PARAMETER(VolumeFilesystemType);

    if (VolumeDeviceType != FILE_DEVICE_DISK_FILE_SYSTEM) {
        return STATUS_FLT_DO_NOT_ATTACH;
    }
    status = FltAllocateContext(FltObjects->Filter, FLT_INSTANCE_CONTEXT, sizeof(INSTANCE_CONTEXT), NonPagedPool, (PFLT_CONTEXT *)&instCtx);
    if (!NT_SUCCESS(status)) {
        return status;
    }
    InitializeListHead(&instCtx->QueueHead);
    ExInitializeFastMutex(&instCtx->Lock);
    instCtx->Held = NULL;
    instCtx->IsLeaving = FALSE;
    status = FltCbdqInitialize(FltObjects->Instance, &instCtx->Cbdq, CsqInsertIo, CsqRemoveIo, CsqPeekNextIo, CsqAcquire, CsqRelease,
                               CsqCompleteCanceledIo);
    FLT_ASSERT(NT_SUCCESS(status));
    status = FltSetInstanceContext(FltObjects->Instance, FLT_SET_CONTEXT_KEEP_IF_EXISTS, instCtx, NULL);
    FltReleaseContext(instCtx);
    return status;
}

/* Only an IRP may be pended, and no paging I/O, nor what the file system itself waits for. */
static BOOLEAN MayBePended(_In_ PFLT_CALLBACK_DATA Data)
{
    return FLT_IS_IRP_OPERATION(Data) && !FlagOn(Data->Iopb->IrpFlags, IRP_PAGING_IO) && IoGetTopLevelIrp() == NULL;
}

static FLT_PREOP_CALLBACK_STATUS PreRead(_Inout_ PFLT_CALLBACK_DATA Data, _In_ PCFLT_RELATED_OBJECTS FltObjects,
                                         _Flt_CompletionContext_Outptr_ PVOID *CompletionContext)
{
    PINSTANCE_CONTEXT instCtx;
    ULONG length = Data->Iopb->Parameters.Read.Length; /* once it is in the queue, another thread may complete it */
    NTSTATUS status;

    UNREFERENCED_PARAMETER(CompletionContext);

    if (FLT_IS_FASTIO_OPERATION(Data)) {
        return FLT_PREOP_DISALLOW_FASTIO; /* it comes again as an IRP */
    }
    if (!MayBePended(Data) || !NT_SUCCESS(FltGetInstanceContext(FltObjects->Instance, (PFLT_CONTEXT *)&instCtx))) {
        return FLT_PREOP_SUCCESS_NO_CALLBACK;
    }
    status = FltCbdqInsertIo(&instCtx->Cbdq, Data, NULL, NULL);
    FltReleaseContext(instCtx);
    if (!NT_SUCCESS(status)) {
        return FLT_PREOP_SUCCESS_NO_CALLBACK;
    }
    DbgPrint("CancelSafe: a read of %u bytes is pended\n", length);
    return FLT_PREOP_PENDING;
}

static FLT_POSTOP_CALLBACK_STATUS PostRead(_Inout_ PFLT_CALLBACK_DATA Data, _In_ PCFLT_RELATED_OBJECTS FltObjects, _In_opt_ PVOID CompletionContext,
                                           _In_ FLT_POST_OPERATION_FLAGS Flags)
{
    UNREFERENCED_PARAMETER(FltObjects);
    UNREFERENCED_PARAMETER(CompletionContext);

    if (FlagOn(Flags, FLTFL_POST_OPERATION_DRAINING)) {
        DbgPrint("CancelSafe: a read is drained\n");
    } else {
        DbgPrint("CancelSafe: a read ends with 0x%08x\n", Data->IoStatus.Status);
    }
    return FLT_POSTOP_FINISHED_PROCESSING;
}

static FLT_POSTOP_CALLBACK_STATUS PostQueryInformation(_Inout_ PFLT_CALLBACK_DATA Data, _In_ PCFLT_RELATED_OBJECTS FltObjects,
                                                       _In_opt_ PVOID CompletionContext, _In_ FLT_POST_OPERATION_FLAGS Flags)
{
    FLT_POSTOP_CALLBACK_STATUS returnStatus = FLT_POSTOP_FINISHED_PROCESSING;
    PINSTANCE_CONTEXT instCtx;

    UNREFERENCED_PARAMETER(CompletionContext);

    if (FlagOn(Flags, FLTFL_POST_OPERATION_DRAINING) || !NT_SUCCESS(FltGetInstanceContext(FltObjects->Instance, (PFLT_CONTEXT *)&instCtx))) {
        return FLT_POSTOP_FINISHED_PROCESSING;
    }
    ExAcquireFastMutex(&instCtx->Lock);
    if (instCtx->Held == NULL && !instCtx->IsLeaving) {
        instCtx->Held = Data;
        returnStatus = FLT_POSTOP_MORE_PROCESSING_REQUIRED;
    }
    ExReleaseFastMutex(&instCtx->Lock);
    FltReleaseContext(instCtx);
    return returnStatus;
}

/* Lets the postoperation go on that is held, if one is. */
static VOID LetHeldGoOn(_In_ PINSTANCE_CONTEXT InstCtx, _In_ BOOLEAN IsLeaving)
{
    PFLT_CALLBACK_DATA held;

    ExAcquireFastMutex(&InstCtx->Lock);
    held = InstCtx->Held;
    InstCtx->Held = NULL;
    InstCtx->IsLeaving |= IsLeaving;
    ExReleaseFastMutex(&InstCtx->Lock);
    if (held != NULL) {
        FltCompletePendedPostOperation(held);
    }
}

static FLT_PREOP_CALLBACK_STATUS PreFlush(_Inout_ PFLT_CALLBACK_DATA Data, _In_ PCFLT_RELATED_OBJECTS FltObjects,
                                          _Flt_CompletionContext_Outptr_ PVOID *CompletionContext)
{
    PINSTANCE_CONTEXT instCtx;
    PFLT_CALLBACK_DATA pended;

    UNREFERENCED_PARAMETER(Data);
    UNREFERENCED_PARAMETER(CompletionContext);

    if (!NT_SUCCESS(FltGetInstanceContext(FltObjects->Instance, (PFLT_CONTEXT *)&instCtx))) {
        return FLT_PREOP_SUCCESS_NO_CALLBACK;
    }
    while ((pended = FltCbdqRemoveNextIo(&instCtx->Cbdq, NULL)) != NULL) {
        FltCompletePendedPreOperation(pended, FLT_PREOP_SUCCESS_WITH_CALLBACK, NULL);
    }
    LetHeldGoOn(instCtx, FALSE);
    FltReleaseContext(instCtx);
    return FLT_PREOP_SUCCESS_NO_CALLBACK;
}

static VOID InstanceTeardownStart(_In_ PCFLT_RELATED_OBJECTS FltObjects, _In_ FLT_INSTANCE_TEARDOWN_FLAGS Reason)
{
    PINSTANCE_CONTEXT instCtx;
    PFLT_CALLBACK_DATA pended;

    UNREFERENCED_PARAMETER(Reason);

    if (!NT_SUCCESS(FltGetInstanceContext(FltObjects->Instance, (PFLT_CONTEXT *)&instCtx))) {
        return;
    }
    FltCbdqDisable(&instCtx->Cbdq);
    while ((pended = FltCbdqRemoveNextIo(&instCtx->Cbdq, NULL)) != NULL) {
        DbgPrint("CancelSafe: a read is completed at the teardown\n");
        pended->IoStatus.Status = STATUS_FLT_DELETING_OBJECT;
        pended->IoStatus.Information = 0;
        FltCompletePendedPreOperation(pended, FLT_PREOP_COMPLETE, NULL);
    }
    LetHeldGoOn(instCtx, TRUE);
    FltReleaseContext(instCtx);
}

static NTSTATUS InstanceQueryTeardown(_In_ PCFLT_RELATED_OBJECTS FltObjects, _In_ FLT_INSTANCE_QUERY_TEARDOWN_FLAGS Flags)
{
    UNREFERENCED_PARAMETER(FltObjects);
    UNREFERENCED_PARAMETER(Flags);
    return STATUS_SUCCESS;
}

static NTSTATUS Unload(_In_ FLT_FILTER_UNLOAD_FLAGS Flags)
{
    UNREFERENCED_PARAMETER(Flags);
    FltUnregisterFilter(gFilterHandle);
    return STATUS_SUCCESS;
}

CONST FLT_OPERATION_REGISTRATION Callbacks[] = {{IRP_MJ_READ, 0, PreRead, PostRead},
                                                {IRP_MJ_QUERY_INFORMATION, 0, NULL, PostQueryInformation},
                                                {IRP_MJ_FLUSH_BUFFERS, 0, PreFlush, NULL},
                                                {IRP_MJ_OPERATION_END}};

CONST FLT_CONTEXT_REGISTRATION ContextRegistration[] = {{FLT_INSTANCE_CONTEXT, 0, NULL, sizeof(INSTANCE_CONTEXT), INSTANCE_TAG}, {FLT_CONTEXT_END}};

CONST FLT_REGISTRATION FilterRegistration = {sizeof(FLT_REGISTRATION), FLT_REGISTRATION_VERSION, 0,    ContextRegistration,   Callbacks, Unload,
                                             InstanceSetup,            InstanceQueryTeardown,    InstanceTeardownStart, NULL};

NTSTATUS DriverEntry(_In_ PDRIVER_OBJECT DriverObject, _In_ PUNICODE_STRING RegistryPath)
{
    NTSTATUS status;

    UNREFERENCED_PARAMETER(RegistryPath);

    status = FltRegisterFilter(DriverObject, &FilterRegistration, &gFilterHandle);
    if (NT_SUCCESS(status)) {
        status = FltStartFiltering(gFilterHandle);
        if (!NT_SUCCESS(status)) {
            FltUnregisterFilter(gFilterHandle);
        }
    }
    return status;
}
