/* Counts the reads of a file in the context of its stream, by a work item that each read waits for. The work item gets the context by the instance and the file object of what it completes. */
#include <fltKernel.h>

typedef struct _TALLY {
    LONG Reads;
} TALLY, *PTALLY;

static PFLT_FILTER gFilter;

static VOID Count(_In_ PFLT_GENERIC_WORKITEM FltWorkItem, _In_ PVOID FltObject, _In_opt_ PVOID Context)
{
    PFLT_CALLBACK_DATA data = Context;
    PTALLY tally = NULL;
    LONG reads = 0;

    if (NT_SUCCESS(FltGetStreamContext((PFLT_INSTANCE)FltObject, data->Iopb->TargetFileObject, (PFLT_CONTEXT *)&tally))) {
        reads = InterlockedIncrement(&tally->Reads);
        FltReleaseContext(tally);
    }
    FltFreeGenericWorkItem(FltWorkItem);
    if (reads > 2) {
        data->IoStatus.Status = STATUS_ACCESS_DENIED;
        data->IoStatus.Information = 0;
        FltCompletePendedPreOperation(data, FLT_PREOP_COMPLETE, NULL);
    } else {
        FltCompletePendedPreOperation(data, FLT_PREOP_SUCCESS_NO_CALLBACK, NULL);
    }
}

/* Only an IRP may be pended, and no paging I/O, nor what the file system itself waits for. */
static BOOLEAN MayBePended(_In_ PFLT_CALLBACK_DATA Data)
{
    return FLT_IS_IRP_OPERATION(Data) && !FlagOn(Data->Iopb->IrpFlags, IRP_PAGING_IO) && IoGetTopLevelIrp() == NULL;
}

static FLT_PREOP_CALLBACK_STATUS PreRead(_Inout_ PFLT_CALLBACK_DATA Data, _In_ PCFLT_RELATED_OBJECTS FltObjects, _Flt_CompletionContext_Outptr_ PVOID *CompletionContext)
{
    PFLT_GENERIC_WORKITEM item;

    UNREFERENCED_PARAMETER(CompletionContext);
    if (FLT_IS_FASTIO_OPERATION(Data)) {
        return FLT_PREOP_DISALLOW_FASTIO;
    }
    item = MayBePended(Data) ? FltAllocateGenericWorkItem() : NULL;
    if (item == NULL) {
        return FLT_PREOP_SUCCESS_NO_CALLBACK;
    }
    if (!NT_SUCCESS(FltQueueGenericWorkItem(item, FltObjects->Instance, Count, DelayedWorkQueue, Data))) {
        FltFreeGenericWorkItem(item);
        return FLT_PREOP_SUCCESS_NO_CALLBACK;
    }
    return FLT_PREOP_PENDING;
}

static FLT_POSTOP_CALLBACK_STATUS PostCreate(_Inout_ PFLT_CALLBACK_DATA Data, _In_ PCFLT_RELATED_OBJECTS FltObjects, _In_opt_ PVOID CompletionContext, _In_ FLT_POST_OPERATION_FLAGS Flags)
{
    PTALLY tally;

    UNREFERENCED_PARAMETER(CompletionContext);
    if (FlagOn(Flags, FLTFL_POST_OPERATION_DRAINING) || !NT_SUCCESS(Data->IoStatus.Status)) {
        return FLT_POSTOP_FINISHED_PROCESSING;
    }
    if (NT_SUCCESS(FltAllocateContext(gFilter, FLT_STREAM_CONTEXT, sizeof(TALLY), NonPagedPoolNx, (PFLT_CONTEXT *)&tally))) {
        tally->Reads = 0;
        FltSetStreamContext(FltObjects->Instance, FltObjects->FileObject, FLT_SET_CONTEXT_KEEP_IF_EXISTS, tally, NULL);
        FltReleaseContext(tally);
    }
    return FLT_POSTOP_FINISHED_PROCESSING;
}

static NTSTATUS QueryTeardown(_In_ PCFLT_RELATED_OBJECTS FltObjects, _In_ FLT_INSTANCE_QUERY_TEARDOWN_FLAGS Flags)
{
    UNREFERENCED_PARAMETER(FltObjects);
    UNREFERENCED_PARAMETER(Flags);
    return STATUS_SUCCESS;
}

static NTSTATUS Unload(_In_ FLT_FILTER_UNLOAD_FLAGS Flags)
{
    UNREFERENCED_PARAMETER(Flags);
    FltUnregisterFilter(gFilter);
    return STATUS_SUCCESS;
}

static const FLT_OPERATION_REGISTRATION Operations[] = {{IRP_MJ_CREATE, 0, NULL, PostCreate}, {IRP_MJ_READ, 0, PreRead, NULL}, {IRP_MJ_OPERATION_END}};

static const FLT_CONTEXT_REGISTRATION Contexts[] = {{FLT_STREAM_CONTEXT, 0, NULL, sizeof(TALLY), 'ylaT'}, {FLT_CONTEXT_END}};

NTSTATUS DriverEntry(_In_ PDRIVER_OBJECT DriverObject, _In_ PUNICODE_STRING RegistryPath)
{
    FLT_REGISTRATION registration = {.Size = sizeof(FLT_REGISTRATION),
                                     .Version = FLT_REGISTRATION_VERSION,
                                     .ContextRegistration = Contexts,
                                     .OperationRegistration = Operations,
                                     .FilterUnloadCallback = Unload,
                                     .InstanceQueryTeardownCallback = QueryTeardown};
    NTSTATUS status;

    UNREFERENCED_PARAMETER(RegistryPath);
    status = FltRegisterFilter(DriverObject, &registration, &gFilter);
    return NT_SUCCESS(status) ? FltStartFiltering(gFilter) : status;
}
