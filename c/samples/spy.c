/* A spy with a log program: each operation has a record, which waits in a list until the program asks for it by the port. Where more wait than there is room for, they are lost and
 * counted. */
#include <fltKernel.h>

#include "spy.h"

#define SPY_TAG 'gLpS'
#define SPY_MOST 64

typedef struct _SPY_ENTRY {
    LIST_ENTRY Links;
    SPY_RECORD Record;
} SPY_ENTRY, *PSPY_ENTRY;

PFLT_FILTER gFilterHandle;
static PFLT_PORT gServerPort;
static PFLT_PORT gClientPort;
static KSPIN_LOCK gLock; /* guards what follows */
static LIST_ENTRY gLog;
static ULONG gCount;
static ULONG gLost;
static ULONG gNumber;

/* ---- Records. */
static PSPY_ENTRY SpyNew(_In_ PFLT_CALLBACK_DATA Data, _In_ PFILE_OBJECT File)
{
    PSPY_ENTRY entry = ExAllocatePoolZero(NonPagedPoolNx, sizeof(SPY_ENTRY), SPY_TAG);
    USHORT letters;

    if (entry == NULL) {
        return NULL;
    }
    entry->Record.ProcessId = FltGetRequestorProcessId(Data);
    entry->Record.MajorFunction = Data->Iopb->MajorFunction;
    letters = File->FileName.Length / sizeof(WCHAR);
    if (letters > SPY_NAME_LETTERS - 1) {
        letters = SPY_NAME_LETTERS - 1;
    }
    RtlCopyMemory(entry->Record.Name, File->FileName.Buffer, letters * sizeof(WCHAR));
    return entry;
}

static VOID SpyLog(_In_ PSPY_ENTRY Entry)
{
    KIRQL irql;
    BOOLEAN isLogged;

    KeAcquireSpinLock(&gLock, &irql);
    Entry->Record.Number = ++gNumber;
    isLogged = gCount < SPY_MOST;
    if (isLogged) {
        InsertTailList(&gLog, &Entry->Links);
        gCount++;
    } else {
        gLost++;
    }
    KeReleaseSpinLock(&gLock, irql);
    if (!isLogged) {
        ExFreePoolWithTag(Entry, SPY_TAG);
    }
}

static PSPY_ENTRY SpyTake(VOID)
{
    PSPY_ENTRY entry = NULL;
    KIRQL irql;

    KeAcquireSpinLock(&gLock, &irql);
    if (!IsListEmpty(&gLog)) {
        entry = CONTAINING_RECORD(RemoveHeadList(&gLog), SPY_ENTRY, Links);
        gCount--;
    }
    KeReleaseSpinLock(&gLock, irql);
    return entry;
}

/* ---- The port. The program's buffers are its own memory: they may be bad, and may go meanwhile. */
static NTSTATUS SpyConnect(_In_ PFLT_PORT ClientPort, _In_opt_ PVOID ServerPortCookie, _In_reads_bytes_opt_(SizeOfContext) PVOID ConnectionContext,
                           _In_ ULONG SizeOfContext, _Outptr_result_maybenull_ PVOID *ConnectionCookie)
{
    UNREFERENCED_PARAMETER(ServerPortCookie);
    UNREFERENCED_PARAMETER(ConnectionContext);
    UNREFERENCED_PARAMETER(SizeOfContext);
    PAGED_CODE();
    gClientPort = ClientPort;
    *ConnectionCookie = NULL;
    return STATUS_SUCCESS;
}

static VOID SpyDisconnect(_In_opt_ PVOID ConnectionCookie)
{
    UNREFERENCED_PARAMETER(ConnectionCookie);
    PAGED_CODE();
    FltCloseClientPort(gFilterHandle, &gClientPort);
}

static NTSTATUS SpyGiveLog(_Out_writes_bytes_to_(Length, *Returned) PVOID Buffer, _In_ ULONG Length, _Out_ PULONG Returned)
{
    NTSTATUS status = STATUS_SUCCESS;
    PSPY_RECORD room = Buffer;
    PSPY_ENTRY entry;

    *Returned = 0;
    while (NT_SUCCESS(status) && Length - *Returned >= sizeof(SPY_RECORD)) {
        entry = SpyTake();
        if (entry == NULL) {
            break;
        }
        try {
            RtlCopyMemory(room, &entry->Record, sizeof(SPY_RECORD));
        } except (EXCEPTION_EXECUTE_HANDLER) {
            status = GetExceptionCode();
        }
        ExFreePoolWithTag(entry, SPY_TAG);
        *Returned += sizeof(SPY_RECORD);
        room++;
    }
    return *Returned == 0 && NT_SUCCESS(status) ? STATUS_NO_MORE_ENTRIES : status;
}

static NTSTATUS SpyMessage(_In_opt_ PVOID PortCookie, _In_reads_bytes_opt_(InputBufferLength) PVOID InputBuffer, _In_ ULONG InputBufferLength,
                           _Out_writes_bytes_to_opt_(OutputBufferLength, *ReturnOutputBufferLength) PVOID OutputBuffer, _In_ ULONG OutputBufferLength,
                           _Out_ PULONG ReturnOutputBufferLength)
{
    SPY_COMMAND command;

    UNREFERENCED_PARAMETER(PortCookie);
    PAGED_CODE();
    if (InputBuffer == NULL || InputBufferLength < sizeof(SPY_REQUEST) || OutputBuffer == NULL || !IS_ALIGNED(OutputBuffer, sizeof(ULONG))) {
        return STATUS_INVALID_PARAMETER;
    }
    try {
        command = ((PSPY_REQUEST)InputBuffer)->Command;
    } except (EXCEPTION_EXECUTE_HANDLER) {
        return GetExceptionCode();
    }
    if (command == SpyGetLog) {
        return OutputBufferLength < sizeof(SPY_RECORD) ? STATUS_BUFFER_TOO_SMALL : SpyGiveLog(OutputBuffer, OutputBufferLength, ReturnOutputBufferLength);
    }
    if (command == SpyGetLost && OutputBufferLength >= sizeof(ULONG)) {
        KIRQL irql;
        ULONG lost;
        KeAcquireSpinLock(&gLock, &irql);
        lost = gLost;
        KeReleaseSpinLock(&gLock, irql);
        try {
            *(PULONG)OutputBuffer = lost;
            *ReturnOutputBufferLength = sizeof(ULONG);
        } except (EXCEPTION_EXECUTE_HANDLER) {
            return GetExceptionCode();
        }
        return STATUS_SUCCESS;
    }
    return STATUS_INVALID_PARAMETER;
}

/* ---- Callbacks. */
static FLT_PREOP_CALLBACK_STATUS SpyPreOperation(_Inout_ PFLT_CALLBACK_DATA Data, _In_ PCFLT_RELATED_OBJECTS FltObjects, _Flt_CompletionContext_Outptr_ PVOID *CompletionContext)
{
    *CompletionContext = SpyNew(Data, FltObjects->FileObject);
    return *CompletionContext == NULL ? FLT_PREOP_SUCCESS_NO_CALLBACK : FLT_PREOP_SUCCESS_WITH_CALLBACK;
}

static FLT_POSTOP_CALLBACK_STATUS SpyPostOperation(_Inout_ PFLT_CALLBACK_DATA Data, _In_ PCFLT_RELATED_OBJECTS FltObjects, _In_ PVOID CompletionContext,
                                                   _In_ FLT_POST_OPERATION_FLAGS Flags)
{
    PSPY_ENTRY entry = CompletionContext;

    UNREFERENCED_PARAMETER(FltObjects);
    if (Flags & FLTFL_POST_OPERATION_DRAINING) {
        ExFreePoolWithTag(entry, SPY_TAG);
        return FLT_POSTOP_FINISHED_PROCESSING;
    }
    entry->Record.Status = Data->IoStatus.Status;
    entry->Record.Information = Data->IoStatus.Information;
    SpyLog(entry);
    return FLT_POSTOP_FINISHED_PROCESSING;
}

static NTSTATUS SpyQueryTeardown(_In_ PCFLT_RELATED_OBJECTS FltObjects, _In_ FLT_INSTANCE_QUERY_TEARDOWN_FLAGS Flags)
{
    UNREFERENCED_PARAMETER(FltObjects);
    UNREFERENCED_PARAMETER(Flags);
    return STATUS_SUCCESS;
}

static NTSTATUS SpyUnload(_In_ FLT_FILTER_UNLOAD_FLAGS Flags)
{
    PSPY_ENTRY entry;

    UNREFERENCED_PARAMETER(Flags);
    FltCloseCommunicationPort(gServerPort);
    FltUnregisterFilter(gFilterHandle);
    for (entry = SpyTake(); entry != NULL; entry = SpyTake()) {
        ExFreePoolWithTag(entry, SPY_TAG);
    }
    return STATUS_SUCCESS;
}

static CONST FLT_OPERATION_REGISTRATION Operations[] = {
    {IRP_MJ_CREATE, 0, SpyPreOperation, SpyPostOperation},
    {IRP_MJ_CLEANUP, 0, SpyPreOperation, SpyPostOperation},
    {IRP_MJ_READ, 0, SpyPreOperation, SpyPostOperation},
    {IRP_MJ_WRITE, 0, SpyPreOperation, SpyPostOperation},
    {IRP_MJ_SET_INFORMATION, 0, SpyPreOperation, SpyPostOperation},
    {IRP_MJ_OPERATION_END},
};

static CONST FLT_REGISTRATION Registration = {
    .Size = sizeof(FLT_REGISTRATION),
    .Version = FLT_REGISTRATION_VERSION,
    .OperationRegistration = Operations,
    .FilterUnloadCallback = SpyUnload,
    .InstanceQueryTeardownCallback = SpyQueryTeardown,
};

static NTSTATUS SpyOpenPort(VOID)
{
    UNICODE_STRING name = RTL_CONSTANT_STRING(SPY_PORT);
    PSECURITY_DESCRIPTOR descriptor;
    OBJECT_ATTRIBUTES attributes;
    NTSTATUS status = FltBuildDefaultSecurityDescriptor(&descriptor, FLT_PORT_ALL_ACCESS);

    if (!NT_SUCCESS(status)) {
        return status;
    }
    InitializeObjectAttributes(&attributes, &name, OBJ_KERNEL_HANDLE | OBJ_CASE_INSENSITIVE, NULL, descriptor);
    status = FltCreateCommunicationPort(gFilterHandle, &gServerPort, &attributes, NULL, SpyConnect, SpyDisconnect, SpyMessage, 1);
    FltFreeSecurityDescriptor(descriptor);
    return status;
}

NTSTATUS DriverEntry(_In_ PDRIVER_OBJECT DriverObject, _In_ PUNICODE_STRING RegistryPath)
{
    NTSTATUS status;

    UNREFERENCED_PARAMETER(RegistryPath);
    KeInitializeSpinLock(&gLock);
    InitializeListHead(&gLog);
    gCount = gLost = gNumber = 0;
    status = FltRegisterFilter(DriverObject, &Registration, &gFilterHandle);
    if (!NT_SUCCESS(status)) {
        return status;
    }
    status = SpyOpenPort();
    if (!NT_SUCCESS(status)) {
        FltUnregisterFilter(gFilterHandle);
        return status;
    }
    status = FltStartFiltering(gFilterHandle);
    if (!NT_SUCCESS(status)) {
        FltCloseCommunicationPort(gServerPort);
        FltUnregisterFilter(gFilterHandle);
    }
    return status;
}
