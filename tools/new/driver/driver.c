/* @NAME@: counts the reads of each file in a stream context, and denies writes to files whose names end with `.secret`. */
#include <fltKernel.h>

typedef struct _READS {
    LONG Count;
} READS, *PREADS;

PFLT_FILTER gFilterHandle;

/* The context of the file, with a reference that the caller releases. The first read of a file makes it. */
static NTSTATUS GetReads(_In_ PCFLT_RELATED_OBJECTS FltObjects, _Outptr_ PREADS *Reads)
{
    PREADS made, old = NULL;
    NTSTATUS status = FltGetStreamContext(FltObjects->Instance, FltObjects->FileObject, (PFLT_CONTEXT *)Reads);

    if (status != STATUS_NOT_FOUND) {
        return status;
    }
    status = FltAllocateContext(gFilterHandle, FLT_STREAM_CONTEXT, sizeof(READS), NonPagedPool, (PFLT_CONTEXT *)&made);
    if (!NT_SUCCESS(status)) {
        return status;
    }
    made->Count = 0;
    status = FltSetStreamContext(FltObjects->Instance, FltObjects->FileObject, FLT_SET_CONTEXT_KEEP_IF_EXISTS, made, (PFLT_CONTEXT *)&old);
    if (status == STATUS_FLT_CONTEXT_ALREADY_DEFINED) {
        FltReleaseContext(made);
        *Reads = old;
        return STATUS_SUCCESS;
    }
    if (!NT_SUCCESS(status)) {
        FltReleaseContext(made);
        return status;
    }
    *Reads = made;
    return STATUS_SUCCESS;
}

static FLT_PREOP_CALLBACK_STATUS PreRead(_Inout_ PFLT_CALLBACK_DATA Data, _In_ PCFLT_RELATED_OBJECTS FltObjects, _Flt_CompletionContext_Outptr_ PVOID *CompletionContext)
{
    PREADS reads;

    UNREFERENCED_PARAMETER(Data);
    UNREFERENCED_PARAMETER(CompletionContext);
    if (NT_SUCCESS(GetReads(FltObjects, &reads))) {
        DbgPrint("@NAME@: read %d\n", InterlockedIncrement(&reads->Count));
        FltReleaseContext(reads);
    }
    return FLT_PREOP_SUCCESS_NO_CALLBACK;
}

static BOOLEAN IsSecret(_In_ PFLT_CALLBACK_DATA Data)
{
    static const UNICODE_STRING ending = RTL_CONSTANT_STRING(L".secret");
    PFLT_FILE_NAME_INFORMATION info;
    BOOLEAN isSecret;

    if (!NT_SUCCESS(FltGetFileNameInformation(Data, FLT_FILE_NAME_NORMALIZED | FLT_FILE_NAME_QUERY_DEFAULT, &info))) {
        return FALSE;
    }
    isSecret = RtlSuffixUnicodeString(&ending, &info->Name, TRUE);
    FltReleaseFileNameInformation(info);
    return isSecret;
}

static FLT_PREOP_CALLBACK_STATUS PreWrite(_Inout_ PFLT_CALLBACK_DATA Data, _In_ PCFLT_RELATED_OBJECTS FltObjects, _Flt_CompletionContext_Outptr_ PVOID *CompletionContext)
{
    UNREFERENCED_PARAMETER(FltObjects);
    UNREFERENCED_PARAMETER(CompletionContext);
    if (FlagOn(Data->Iopb->IrpFlags, IRP_PAGING_IO) || !IsSecret(Data)) { /* in paging I/O no name may be asked for */
        return FLT_PREOP_SUCCESS_NO_CALLBACK;
    }
    Data->IoStatus.Status = STATUS_ACCESS_DENIED;
    Data->IoStatus.Information = 0;
    return FLT_PREOP_COMPLETE;
}

/* Without it nobody could detach an instance by hand. */
static NTSTATUS QueryTeardown(_In_ PCFLT_RELATED_OBJECTS FltObjects, _In_ FLT_INSTANCE_QUERY_TEARDOWN_FLAGS Flags)
{
    UNREFERENCED_PARAMETER(FltObjects);
    UNREFERENCED_PARAMETER(Flags);
    return STATUS_SUCCESS;
}

static NTSTATUS Unload(_In_ FLT_FILTER_UNLOAD_FLAGS Flags)
{
    UNREFERENCED_PARAMETER(Flags);
    FltUnregisterFilter(gFilterHandle);
    return STATUS_SUCCESS;
}

static const FLT_CONTEXT_REGISTRATION contexts[] = {
    {FLT_STREAM_CONTEXT, 0, NULL, sizeof(READS), 'sdaR'},
    {FLT_CONTEXT_END},
};

static const FLT_OPERATION_REGISTRATION operations[] = {
    {IRP_MJ_READ, 0, PreRead, NULL},
    {IRP_MJ_WRITE, 0, PreWrite, NULL},
    {IRP_MJ_OPERATION_END},
};

static const FLT_REGISTRATION registration = {
    .Size = sizeof(FLT_REGISTRATION),
    .Version = FLT_REGISTRATION_VERSION,
    .ContextRegistration = contexts,
    .OperationRegistration = operations,
    .FilterUnloadCallback = Unload,
    .InstanceQueryTeardownCallback = QueryTeardown,
};

NTSTATUS DriverEntry(_In_ PDRIVER_OBJECT DriverObject, _In_ PUNICODE_STRING RegistryPath)
{
    NTSTATUS status;

    UNREFERENCED_PARAMETER(RegistryPath);
    status = FltRegisterFilter(DriverObject, &registration, &gFilterHandle);
    if (!NT_SUCCESS(status)) {
        return status;
    }
    status = FltStartFiltering(gFilterHandle);
    if (!NT_SUCCESS(status)) {
        FltUnregisterFilter(gFilterHandle);
    }
    return status;
}
