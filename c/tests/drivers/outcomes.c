/* A filter that asks for the status with which the file system's call returned, as the kit's passThrough does: of notices, which wait, of control codes and of reads. In a postoperation of a
 * write of `late` it asks too late. */
#include <fltKernel.h>

static PFLT_FILTER gFilter;

static VOID Returned(_In_ PCFLT_RELATED_OBJECTS FltObjects, _In_ PFLT_IO_PARAMETER_BLOCK IopbSnapshot, _In_ NTSTATUS OperationStatus, _In_ PVOID RequesterContext)
{
    DbgPrint("major %u of %wZ returned %08x, context %u, length %u\n", IopbSnapshot->MajorFunction, &FltObjects->FileObject->FileName, OperationStatus, (ULONG)(ULONG_PTR)RequesterContext,
             IopbSnapshot->MajorFunction == IRP_MJ_READ ? IopbSnapshot->Parameters.Read.Length : 0);
}

static FLT_PREOP_CALLBACK_STATUS Pre(_Inout_ PFLT_CALLBACK_DATA Data, _In_ PCFLT_RELATED_OBJECTS FltObjects, _Flt_CompletionContext_Outptr_ PVOID *CompletionContext)
{
    NTSTATUS status;

    UNREFERENCED_PARAMETER(FltObjects);
    UNREFERENCED_PARAMETER(CompletionContext);
    if (Data->Iopb->MajorFunction != IRP_MJ_WRITE) {
        status = FltRequestOperationStatusCallback(Data, Returned, (PVOID)(ULONG_PTR)7);
        if (!NT_SUCCESS(status)) {
            DbgPrint("FltRequestOperationStatusCallback: %08x\n", status);
        }
    }
    if (Data->Iopb->MajorFunction == IRP_MJ_READ && Data->Iopb->Parameters.Read.Length > 2) {
        Data->Iopb->Parameters.Read.Length = 2;
        FltSetCallbackDataDirty(Data);
    }
    return FLT_PREOP_SUCCESS_WITH_CALLBACK;
}

static FLT_POSTOP_CALLBACK_STATUS Post(_Inout_ PFLT_CALLBACK_DATA Data, _In_ PCFLT_RELATED_OBJECTS FltObjects, _In_opt_ PVOID CompletionContext, _In_ FLT_POST_OPERATION_FLAGS Flags)
{
    UNREFERENCED_PARAMETER(CompletionContext);
    if (FlagOn(Flags, FLTFL_POST_OPERATION_DRAINING)) {
        return FLT_POSTOP_FINISHED_PROCESSING;
    }
    DbgPrint("post of major %u: %08x\n", Data->Iopb->MajorFunction, Data->IoStatus.Status);
    if (Data->Iopb->MajorFunction == IRP_MJ_WRITE && FltObjects->FileObject->FileName.Length == 5 * sizeof(WCHAR) && FltObjects->FileObject->FileName.Buffer[1] == 'l') {
        DbgPrint("FltRequestOperationStatusCallback: %08x\n", FltRequestOperationStatusCallback(Data, Returned, NULL));
    }
    return FLT_POSTOP_FINISHED_PROCESSING;
}

static NTSTATUS QueryTeardown(_In_ PCFLT_RELATED_OBJECTS FltObjects, _In_ FLT_INSTANCE_QUERY_TEARDOWN_FLAGS Flags)
{
    UNREFERENCED_PARAMETER(FltObjects);
    UNREFERENCED_PARAMETER(Flags);
    return STATUS_SUCCESS;
}

static NTSTATUS Unload(_In_ FLT_FILTER_UNLOAD_FLAGS Flags)
{
    UNREFERENCED_PARAMETER(Flags);
    FltUnregisterFilter(gFilter);
    return STATUS_SUCCESS;
}

static const FLT_OPERATION_REGISTRATION Callbacks[] = {
    {IRP_MJ_DIRECTORY_CONTROL, 0, Pre, Post}, {IRP_MJ_FILE_SYSTEM_CONTROL, 0, Pre, Post}, {IRP_MJ_READ, 0, Pre, Post}, {IRP_MJ_WRITE, 0, Pre, Post}, {IRP_MJ_OPERATION_END}};
static const FLT_REGISTRATION Registration = {.Size = sizeof(FLT_REGISTRATION), .Version = FLT_REGISTRATION_VERSION, .OperationRegistration = Callbacks, .FilterUnloadCallback = Unload,
                                              .InstanceQueryTeardownCallback = QueryTeardown};

NTSTATUS DriverEntry(_In_ PDRIVER_OBJECT DriverObject, _In_ PUNICODE_STRING RegistryPath)
{
    NTSTATUS status;

    UNREFERENCED_PARAMETER(RegistryPath);
    status = FltRegisterFilter(DriverObject, &Registration, &gFilter);
    if (NT_SUCCESS(status)) {
        status = FltStartFiltering(gFilter);
        if (!NT_SUCCESS(status)) {
            FltUnregisterFilter(gFilter);
        }
    }
    return status;
}
