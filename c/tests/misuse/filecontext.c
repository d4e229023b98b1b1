/* Mistakes with contexts of files, by the names of files: kind, twice and leak. */
#include <fltKernel.h>

PFLT_FILTER gFilter;

static BOOLEAN IsNamed(PCFLT_RELATED_OBJECTS FltObjects, PCWSTR Name)
{
    UNICODE_STRING name;
    RtlInitUnicodeString(&name, Name);
    return RtlEqualUnicodeString(&FltObjects->FileObject->FileName, &name, FALSE);
}

static FLT_POSTOP_CALLBACK_STATUS PostCreate(PFLT_CALLBACK_DATA Data, PCFLT_RELATED_OBJECTS FltObjects, PVOID Context, FLT_POST_OPERATION_FLAGS Flags)
{
    FLT_CONTEXT_TYPE type = IsNamed(FltObjects, L"\\kind") ? FLT_STREAM_CONTEXT : FLT_FILE_CONTEXT;
    PFLT_CONTEXT made;

    UNREFERENCED_PARAMETER(Context);
    UNREFERENCED_PARAMETER(Flags);
    if (!NT_SUCCESS(Data->IoStatus.Status) || !NT_SUCCESS(FltAllocateContext(gFilter, type, 8, PagedPool, &made)))
        return FLT_POSTOP_FINISHED_PROCESSING;
    FltSetFileContext(FltObjects->Instance, FltObjects->FileObject, FLT_SET_CONTEXT_KEEP_IF_EXISTS, made, NULL);
    if (!IsNamed(FltObjects, L"\\leak"))
        FltReleaseContext(made);
    if (IsNamed(FltObjects, L"\\twice"))
        FltReleaseContext(made);
    return FLT_POSTOP_FINISHED_PROCESSING;
}

static NTSTATUS Unload(FLT_FILTER_UNLOAD_FLAGS Flags)
{
    UNREFERENCED_PARAMETER(Flags);
    FltUnregisterFilter(gFilter);
    return STATUS_SUCCESS;
}

static CONST FLT_OPERATION_REGISTRATION Operations[] = {{IRP_MJ_CREATE, 0, NULL, PostCreate}, {IRP_MJ_OPERATION_END}};
static CONST FLT_CONTEXT_REGISTRATION Contexts[] = {{FLT_FILE_CONTEXT, 0, NULL, 8, 'xtFC'}, {FLT_STREAM_CONTEXT, 0, NULL, 8, 'xtFC'}, {FLT_CONTEXT_END}};
static CONST FLT_REGISTRATION Registration = {.Size = sizeof(FLT_REGISTRATION),
                                              .Version = FLT_REGISTRATION_VERSION,
                                              .ContextRegistration = Contexts,
                                              .OperationRegistration = Operations,
                                              .FilterUnloadCallback = Unload};

NTSTATUS DriverEntry(PDRIVER_OBJECT DriverObject, PUNICODE_STRING RegistryPath)
{
    NTSTATUS status;
    UNREFERENCED_PARAMETER(RegistryPath);
    status = FltRegisterFilter(DriverObject, &Registration, &gFilter);
    if (!NT_SUCCESS(status))
        return status;
    status = FltStartFiltering(gFilter);
    if (!NT_SUCCESS(status))
        FltUnregisterFilter(gFilter);
    return status;
}
