/* A scanner with a service: what a file holds is sent to a program, whose verdict decides. An open is looked at once the file system has answered it, by a read below the filter; a
 * write before it goes down; and a file that was written once more before its cleanup. Without a service everything is allowed, but for the log. */
#include <fltKernel.h>

#include "contentscan.h"

#define SCAN_TAG 'nacS'

/* Of an open by which the file may be written. */
typedef struct _SCAN_HANDLE_CONTEXT {
    LONG Written;
} SCAN_HANDLE_CONTEXT, *PSCAN_HANDLE_CONTEXT;

PFLT_FILTER gFilterHandle;
static PFLT_PORT gServerPort;
static PFLT_PORT gClientPort;
static PVOID volatile gService; /* the process that is connected: its own opens aren't looked at */

/* ---- The port. */
static NTSTATUS ScanConnect(_In_ PFLT_PORT ClientPort, _In_opt_ PVOID ServerPortCookie, _In_reads_bytes_opt_(SizeOfContext) PVOID ConnectionContext,
                            _In_ ULONG SizeOfContext, _Outptr_result_maybenull_ PVOID *ConnectionCookie)
{
    UNREFERENCED_PARAMETER(ServerPortCookie);
    UNREFERENCED_PARAMETER(ConnectionContext);
    UNREFERENCED_PARAMETER(SizeOfContext);
    PAGED_CODE();

    gClientPort = ClientPort;
    InterlockedExchangePointer(&gService, PsGetCurrentProcess());
    *ConnectionCookie = NULL;
    DbgPrint("ContentScan: the service is connected\n");
    return STATUS_SUCCESS;
}

static VOID ScanDisconnect(_In_opt_ PVOID ConnectionCookie)
{
    UNREFERENCED_PARAMETER(ConnectionCookie);
    PAGED_CODE();

    FltCloseClientPort(gFilterHandle, &gClientPort);
    InterlockedExchangePointer(&gService, NULL);
    DbgPrint("ContentScan: the service is gone\n");
}

/* Asks the service; what it doesn't answer is allowed. */
static BOOLEAN ScanIsClean(_In_ PCONTENTSCAN_REQUEST Request)
{
    CONTENTSCAN_VERDICT verdict;
    ULONG length = sizeof(verdict);
    LARGE_INTEGER timeout;
    NTSTATUS status;

    timeout.QuadPart = -10 * 1000 * 1000; /* one second */
    status = FltSendMessage(gFilterHandle, &gClientPort, Request, sizeof(CONTENTSCAN_REQUEST), &verdict, &length, &timeout);
    if (status != STATUS_SUCCESS || length < sizeof(verdict)) {
        if (status != STATUS_PORT_DISCONNECTED) {
            DbgPrint("ContentScan: no verdict, 0x%08x\n", status);
        }
        return TRUE;
    }
    return verdict.IsClean != 0;
}

/* What a file begins with is read below the filter. */
static BOOLEAN ScanIsFileClean(_In_ PCFLT_RELATED_OBJECTS FltObjects)
{
    LARGE_INTEGER offset = {.QuadPart = 0};
    BOOLEAN isClean = TRUE;
    NTSTATUS status;
    PCONTENTSCAN_REQUEST request = ExAllocatePoolZero(NonPagedPoolNx, sizeof(CONTENTSCAN_REQUEST), SCAN_TAG);

    if (request == NULL) {
        return TRUE;
    }
    status = FltReadFile(FltObjects->Instance, FltObjects->FileObject, &offset, CONTENTSCAN_MOST, request->Content,
                         FLTFL_IO_OPERATION_DO_NOT_UPDATE_BYTE_OFFSET, &request->Length, NULL, NULL);
    if (NT_SUCCESS(status) && request->Length > 0) {
        isClean = ScanIsClean(request);
    }
    ExFreePoolWithTag(request, SCAN_TAG);
    return isClean;
}

static BOOLEAN ScanWants(_In_ PFLT_CALLBACK_DATA Data)
{
    static const UNICODE_STRING extension = RTL_CONSTANT_STRING(L"doc");
    PFLT_FILE_NAME_INFORMATION nameInfo;
    BOOLEAN wants = FALSE;

    if (NT_SUCCESS(FltGetFileNameInformation(Data, FLT_FILE_NAME_NORMALIZED | FLT_FILE_NAME_QUERY_DEFAULT, &nameInfo))) {
        wants = NT_SUCCESS(FltParseFileNameInformation(nameInfo)) && RtlEqualUnicodeString(&nameInfo->Extension, &extension, TRUE);
        FltReleaseFileNameInformation(nameInfo);
    }
    return wants;
}

/* ---- Callbacks. */
static FLT_PREOP_CALLBACK_STATUS ScanPreCreate(_Inout_ PFLT_CALLBACK_DATA Data, _In_ PCFLT_RELATED_OBJECTS FltObjects, _Flt_CompletionContext_Outptr_ PVOID *CompletionContext)
{
    UNREFERENCED_PARAMETER(FltObjects);
    UNREFERENCED_PARAMETER(CompletionContext);
    PAGED_CODE();

    return gService != NULL && IoThreadToProcess(Data->Thread) == gService ? FLT_PREOP_SUCCESS_NO_CALLBACK : FLT_PREOP_SUCCESS_WITH_CALLBACK;
}

static VOID ScanMark(_In_ PCFLT_RELATED_OBJECTS FltObjects)
{
    PSCAN_HANDLE_CONTEXT context;

    if (NT_SUCCESS(FltAllocateContext(gFilterHandle, FLT_STREAMHANDLE_CONTEXT, sizeof(SCAN_HANDLE_CONTEXT), NonPagedPool, (PFLT_CONTEXT *)&context))) {
        context->Written = 0;
        FltSetStreamHandleContext(FltObjects->Instance, FltObjects->FileObject, FLT_SET_CONTEXT_REPLACE_IF_EXISTS, context, NULL);
        FltReleaseContext(context);
    }
}

static FLT_POSTOP_CALLBACK_STATUS ScanPostCreate(_Inout_ PFLT_CALLBACK_DATA Data, _In_ PCFLT_RELATED_OBJECTS FltObjects, _In_opt_ PVOID CompletionContext,
                                                 _In_ FLT_POST_OPERATION_FLAGS Flags)
{
    UNREFERENCED_PARAMETER(CompletionContext);
    if ((Flags & FLTFL_POST_OPERATION_DRAINING) || !NT_SUCCESS(Data->IoStatus.Status) || Data->IoStatus.Status == STATUS_REPARSE || !ScanWants(Data)) {
        return FLT_POSTOP_FINISHED_PROCESSING;
    }
    if (!ScanIsFileClean(FltObjects)) {
        DbgPrint("ContentScan: %wZ isn't opened\n", &FltObjects->FileObject->FileName);
        FltCancelFileOpen(FltObjects->Instance, FltObjects->FileObject);
        Data->IoStatus.Status = STATUS_ACCESS_DENIED;
        Data->IoStatus.Information = 0;
    } else if (FltObjects->FileObject->WriteAccess) {
        ScanMark(FltObjects);
    }
    return FLT_POSTOP_FINISHED_PROCESSING;
}

static BOOLEAN ScanIsWriteClean(_In_ PFLT_CALLBACK_DATA Data)
{
    FLT_PARAMETERS *parameters = &Data->Iopb->Parameters;
    BOOLEAN isClean = TRUE;
    PVOID buffer = parameters->Write.WriteBuffer;
    PCONTENTSCAN_REQUEST request = ExAllocatePoolZero(NonPagedPoolNx, sizeof(CONTENTSCAN_REQUEST), SCAN_TAG);

    if (parameters->Write.MdlAddress != NULL) {
        buffer = MmGetSystemAddressForMdlSafe(parameters->Write.MdlAddress, NormalPagePriority | MdlMappingNoExecute);
    }
    if (request == NULL) {
        return TRUE;
    }
    request->Length = min(parameters->Write.Length, CONTENTSCAN_MOST);
    try {
        RtlCopyMemory(request->Content, buffer, request->Length);
        isClean = ScanIsClean(request);
    } except (EXCEPTION_EXECUTE_HANDLER) {
        isClean = TRUE; /* the caller's buffer is gone */
    }
    ExFreePoolWithTag(request, SCAN_TAG);
    return isClean;
}

static FLT_PREOP_CALLBACK_STATUS ScanPreWrite(_Inout_ PFLT_CALLBACK_DATA Data, _In_ PCFLT_RELATED_OBJECTS FltObjects, _Flt_CompletionContext_Outptr_ PVOID *CompletionContext)
{
    PSCAN_HANDLE_CONTEXT context;
    FLT_PREOP_CALLBACK_STATUS answer = FLT_PREOP_SUCCESS_NO_CALLBACK;

    UNREFERENCED_PARAMETER(CompletionContext);
    if (!NT_SUCCESS(FltGetStreamHandleContext(FltObjects->Instance, FltObjects->FileObject, (PFLT_CONTEXT *)&context))) {
        return answer;
    }
    if (Data->Iopb->Parameters.Write.Length > 0 && !ScanIsWriteClean(Data)) {
        DbgPrint("ContentScan: %wZ isn't written\n", &FltObjects->FileObject->FileName);
        Data->IoStatus.Status = STATUS_ACCESS_DENIED;
        Data->IoStatus.Information = 0;
        answer = FLT_PREOP_COMPLETE;
    } else {
        InterlockedIncrement(&context->Written);
    }
    FltReleaseContext(context);
    return answer;
}

/* A foul word may have come by two writes: then nobody can be refused any more. */
static FLT_PREOP_CALLBACK_STATUS ScanPreCleanup(_Inout_ PFLT_CALLBACK_DATA Data, _In_ PCFLT_RELATED_OBJECTS FltObjects, _Flt_CompletionContext_Outptr_ PVOID *CompletionContext)
{
    PSCAN_HANDLE_CONTEXT context;

    UNREFERENCED_PARAMETER(Data);
    UNREFERENCED_PARAMETER(CompletionContext);
    if (NT_SUCCESS(FltGetStreamHandleContext(FltObjects->Instance, FltObjects->FileObject, (PFLT_CONTEXT *)&context))) {
        if (InterlockedCompareExchange(&context->Written, 0, 0) > 0 && !FltObjects->FileObject->DeletePending && !ScanIsFileClean(FltObjects)) {
            DbgPrint("ContentScan: %wZ is foul as it is closed\n", &FltObjects->FileObject->FileName);
        }
        FltReleaseContext(context);
    }
    return FLT_PREOP_SUCCESS_NO_CALLBACK;
}

static NTSTATUS ScanQueryTeardown(_In_ PCFLT_RELATED_OBJECTS FltObjects, _In_ FLT_INSTANCE_QUERY_TEARDOWN_FLAGS Flags)
{
    UNREFERENCED_PARAMETER(FltObjects);
    UNREFERENCED_PARAMETER(Flags);
    return STATUS_SUCCESS;
}

static NTSTATUS ScanUnload(_In_ FLT_FILTER_UNLOAD_FLAGS Flags)
{
    UNREFERENCED_PARAMETER(Flags);
    FltCloseCommunicationPort(gServerPort);
    FltUnregisterFilter(gFilterHandle);
    return STATUS_SUCCESS;
}

static CONST FLT_OPERATION_REGISTRATION Operations[] = {
    {IRP_MJ_CREATE, 0, ScanPreCreate, ScanPostCreate},
    {IRP_MJ_WRITE, FLTFL_OPERATION_REGISTRATION_SKIP_PAGING_IO, ScanPreWrite, NULL},
    {IRP_MJ_CLEANUP, 0, ScanPreCleanup, NULL},
    {IRP_MJ_OPERATION_END},
};

static CONST FLT_CONTEXT_REGISTRATION Contexts[] = {
    {FLT_STREAMHANDLE_CONTEXT, 0, NULL, sizeof(SCAN_HANDLE_CONTEXT), SCAN_TAG},
    {FLT_CONTEXT_END},
};

static CONST FLT_REGISTRATION Registration = {
    .Size = sizeof(FLT_REGISTRATION),
    .Version = FLT_REGISTRATION_VERSION,
    .ContextRegistration = Contexts,
    .OperationRegistration = Operations,
    .FilterUnloadCallback = ScanUnload,
    .InstanceQueryTeardownCallback = ScanQueryTeardown,
};

static NTSTATUS ScanOpenPort(VOID)
{
    UNICODE_STRING name = RTL_CONSTANT_STRING(CONTENTSCAN_PORT);
    PSECURITY_DESCRIPTOR descriptor;
    OBJECT_ATTRIBUTES attributes;
    NTSTATUS status = FltBuildDefaultSecurityDescriptor(&descriptor, FLT_PORT_ALL_ACCESS);

    if (!NT_SUCCESS(status)) {
        return status;
    }
    InitializeObjectAttributes(&attributes, &name, OBJ_KERNEL_HANDLE | OBJ_CASE_INSENSITIVE, NULL, descriptor);
    status = FltCreateCommunicationPort(gFilterHandle, &gServerPort, &attributes, NULL, ScanConnect, ScanDisconnect, NULL, 1);
    FltFreeSecurityDescriptor(descriptor);
    return status;
}

NTSTATUS DriverEntry(_In_ PDRIVER_OBJECT DriverObject, _In_ PUNICODE_STRING RegistryPath)
{
    NTSTATUS status;

    UNREFERENCED_PARAMETER(RegistryPath);
    gClientPort = NULL;
    gService = NULL;
    status = FltRegisterFilter(DriverObject, &Registration, &gFilterHandle);
    if (!NT_SUCCESS(status)) {
        return status;
    }
    status = ScanOpenPort();
    if (!NT_SUCCESS(status)) {
        FltUnregisterFilter(gFilterHandle);
        return status;
    }
    status = FltStartFiltering(gFilterHandle);
    if (!NT_SUCCESS(status)) {
        FltCloseCommunicationPort(gServerPort);
        FltUnregisterFilter(gFilterHandle);
    }
    return status;
}
