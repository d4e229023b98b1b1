/* Writes and locks are held, and a work item moves them by 16 bytes before they go on: those below see the new offset, and the postoperation the one that it received. */
#include <fltKernel.h>

static PFLT_FILTER gFilter;

static LARGE_INTEGER *OffsetOf(_In_ PFLT_CALLBACK_DATA Data)
{
    return Data->Iopb->MajorFunction == IRP_MJ_WRITE ? &Data->Iopb->Parameters.Write.ByteOffset : &Data->Iopb->Parameters.LockControl.ByteOffset;
}

static VOID Move(_In_ PFLT_DEFERRED_IO_WORKITEM FltWorkItem, _In_ PFLT_CALLBACK_DATA Data, _In_opt_ PVOID Context)
{
    OffsetOf(Data)->QuadPart += 16;
    FltSetCallbackDataDirty(Data);
    FltFreeDeferredIoWorkItem(FltWorkItem);
    FltCompletePendedPreOperation(Data, FLT_PREOP_SUCCESS_WITH_CALLBACK, Context);
}

static FLT_PREOP_CALLBACK_STATUS Pre(_Inout_ PFLT_CALLBACK_DATA Data, _In_ PCFLT_RELATED_OBJECTS FltObjects, _Flt_CompletionContext_Outptr_ PVOID *CompletionContext)
{
    PFLT_DEFERRED_IO_WORKITEM item;

    UNREFERENCED_PARAMETER(FltObjects);
    UNREFERENCED_PARAMETER(CompletionContext);
    if (!FLT_IS_IRP_OPERATION(Data)) {
        return FLT_IS_FASTIO_OPERATION(Data) ? FLT_PREOP_DISALLOW_FASTIO : FLT_PREOP_SUCCESS_NO_CALLBACK;
    }
    if (Data->Iopb->MajorFunction == IRP_MJ_LOCK_CONTROL && Data->Iopb->MinorFunction != IRP_MN_LOCK) {
        return FLT_PREOP_SUCCESS_NO_CALLBACK;
    }
    item = FltAllocateDeferredIoWorkItem();
    if (item == NULL) {
        return FLT_PREOP_SUCCESS_NO_CALLBACK;
    }
    if (!NT_SUCCESS(FltQueueDeferredIoWorkItem(item, Data, Move, DelayedWorkQueue, (PVOID)(ULONG_PTR)OffsetOf(Data)->QuadPart))) {
        FltFreeDeferredIoWorkItem(item);
        return FLT_PREOP_SUCCESS_NO_CALLBACK;
    }
    return FLT_PREOP_PENDING;
}

static FLT_POSTOP_CALLBACK_STATUS Post(_Inout_ PFLT_CALLBACK_DATA Data, _In_ PCFLT_RELATED_OBJECTS FltObjects, _In_opt_ PVOID CompletionContext, _In_ FLT_POST_OPERATION_FLAGS Flags)
{
    UNREFERENCED_PARAMETER(FltObjects);
    if (!FlagOn(Flags, FLTFL_POST_OPERATION_DRAINING) && OffsetOf(Data)->QuadPart != (LONGLONG)(ULONG_PTR)CompletionContext) {
        Data->IoStatus.Status = STATUS_DATA_ERROR;
        Data->IoStatus.Information = 0;
    }
    return FLT_POSTOP_FINISHED_PROCESSING;
}

static NTSTATUS QueryTeardown(_In_ PCFLT_RELATED_OBJECTS FltObjects, _In_ FLT_INSTANCE_QUERY_TEARDOWN_FLAGS Flags)
{
    UNREFERENCED_PARAMETER(FltObjects);
    UNREFERENCED_PARAMETER(Flags);
    return STATUS_SUCCESS;
}

static NTSTATUS Unload(_In_ FLT_FILTER_UNLOAD_FLAGS Flags)
{
    UNREFERENCED_PARAMETER(Flags);
    FltUnregisterFilter(gFilter);
    return STATUS_SUCCESS;
}

static const FLT_OPERATION_REGISTRATION Operations[] = {{IRP_MJ_WRITE, 0, Pre, Post}, {IRP_MJ_LOCK_CONTROL, 0, Pre, Post}, {IRP_MJ_OPERATION_END}};

NTSTATUS DriverEntry(_In_ PDRIVER_OBJECT DriverObject, _In_ PUNICODE_STRING RegistryPath)
{
    FLT_REGISTRATION registration = {.Size = sizeof(FLT_REGISTRATION), .Version = FLT_REGISTRATION_VERSION, .OperationRegistration = Operations, .FilterUnloadCallback = Unload, .InstanceQueryTeardownCallback = QueryTeardown};
    NTSTATUS status;

    UNREFERENCED_PARAMETER(RegistryPath);
    status = FltRegisterFilter(DriverObject, &registration, &gFilter);
    if (!NT_SUCCESS(status)) {
        return status;
    }
    status = FltStartFiltering(gFilter);
    if (!NT_SUCCESS(status)) {
        FltUnregisterFilter(gFilter);
    }
    return status;
}
