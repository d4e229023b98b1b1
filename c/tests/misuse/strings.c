/* Names as if a null ended them, memory past them, and swapped buffers that are gone or too short. Each flush takes the next step; writes and reads swap their buffers. */
#include <fltKernel.h>

#define TEXTS_TAG 'txeT'

static PFLT_FILTER gFilter;
static ULONG gStep;
static volatile size_t gLength;

static FLT_PREOP_CALLBACK_STATUS PreFlush(_Inout_ PFLT_CALLBACK_DATA Data, _In_ PCFLT_RELATED_OBJECTS FltObjects, _Flt_CompletionContext_Outptr_ PVOID *CompletionContext)
{
    PFLT_FILE_NAME_INFORMATION name;

    UNREFERENCED_PARAMETER(CompletionContext);
    if (!NT_SUCCESS(FltGetFileNameInformation(Data, FLT_FILE_NAME_NORMALIZED | FLT_FILE_NAME_QUERY_DEFAULT, &name))) {
        return FLT_PREOP_SUCCESS_NO_CALLBACK;
    }
    switch (gStep++) {
    case 0:
        gLength = wcslen(name->Name.Buffer);
        break;
    case 1:
        name->Name.Buffer[name->Name.Length / sizeof(WCHAR)] = 0;
        break;
    case 2:
        gLength = wcslen(FltObjects->FileObject->FileName.Buffer);
        break;
    }
    FltReleaseFileNameInformation(name);
    return FLT_PREOP_SUCCESS_NO_CALLBACK;
}

/* The buffer is freed before it is used, or has fewer bytes than it is said to have. */
static FLT_PREOP_CALLBACK_STATUS PreWrite(_Inout_ PFLT_CALLBACK_DATA Data, _In_ PCFLT_RELATED_OBJECTS FltObjects, _Flt_CompletionContext_Outptr_ PVOID *CompletionContext)
{
    BOOLEAN isShort = Data->Iopb->Parameters.Write.Length > 4;
    PVOID buffer = ExAllocatePoolWithTag(NonPagedPool, isShort ? 4 : Data->Iopb->Parameters.Write.Length, TEXTS_TAG);

    UNREFERENCED_PARAMETER(FltObjects);
    if (buffer == NULL) {
        return FLT_PREOP_SUCCESS_NO_CALLBACK;
    }
    __try { RtlCopyMemory(buffer, Data->Iopb->Parameters.Write.WriteBuffer, isShort ? 4 : Data->Iopb->Parameters.Write.Length); } __except (EXCEPTION_EXECUTE_HANDLER) { }
    Data->Iopb->Parameters.Write.WriteBuffer = buffer;
    FltSetCallbackDataDirty(Data);
    *CompletionContext = buffer;
    if (!isShort) {
        ExFreePoolWithTag(buffer, TEXTS_TAG);
        return FLT_PREOP_SUCCESS_NO_CALLBACK;
    }
    return FLT_PREOP_SUCCESS_WITH_CALLBACK;
}

static FLT_POSTOP_CALLBACK_STATUS PostWrite(_Inout_ PFLT_CALLBACK_DATA Data, _In_ PCFLT_RELATED_OBJECTS FltObjects, _In_opt_ PVOID CompletionContext, _In_ FLT_POST_OPERATION_FLAGS Flags)
{
    UNREFERENCED_PARAMETER(Data);
    UNREFERENCED_PARAMETER(FltObjects);
    UNREFERENCED_PARAMETER(Flags);
    ExFreePoolWithTag(CompletionContext, TEXTS_TAG);
    return FLT_POSTOP_FINISHED_PROCESSING;
}

static NTSTATUS Unload(_In_ FLT_FILTER_UNLOAD_FLAGS Flags)
{
    UNREFERENCED_PARAMETER(Flags);
    FltUnregisterFilter(gFilter);
    return STATUS_SUCCESS;
}

static const FLT_OPERATION_REGISTRATION Operations[] = {{IRP_MJ_FLUSH_BUFFERS, 0, PreFlush}, {IRP_MJ_WRITE, 0, PreWrite, PostWrite}, {IRP_MJ_OPERATION_END}};

NTSTATUS DriverEntry(_In_ PDRIVER_OBJECT DriverObject, _In_ PUNICODE_STRING RegistryPath)
{
    FLT_REGISTRATION registration = {.Size = sizeof(FLT_REGISTRATION), .Version = FLT_REGISTRATION_VERSION, .OperationRegistration = Operations, .FilterUnloadCallback = Unload};
    NTSTATUS status;

    UNREFERENCED_PARAMETER(RegistryPath);
    status = FltRegisterFilter(DriverObject, &registration, &gFilter);
    return NT_SUCCESS(status) ? FltStartFiltering(gFilter) : status;
}
