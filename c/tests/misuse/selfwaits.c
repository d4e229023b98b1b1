/* Waits that nobody ends: for rundown protection by who is inside, for a program that waits for this very answer, for a thread that nobody tells to end; and a log that is written through itself. */
#include <fltKernel.h>

static PFLT_FILTER gFilter;
static PFLT_PORT gPort, gClient;
static EX_RUNDOWN_REF gRundown;
static KEVENT gStop;
static PETHREAD gThread;
static BOOLEAN gAsks;

static VOID Live(PVOID Context)
{
    UNREFERENCED_PARAMETER(Context);
    KeWaitForSingleObject(&gStop, Executive, KernelMode, FALSE, NULL);
    PsTerminateSystemThread(STATUS_SUCCESS);
}

static VOID StartThread(VOID)
{
    HANDLE handle;

    if (NT_SUCCESS(PsCreateSystemThread(&handle, THREAD_ALL_ACCESS, NULL, NULL, NULL, Live, NULL))) {
        ObReferenceObjectByHandle(handle, THREAD_ALL_ACCESS, *PsThreadType, KernelMode, (PVOID *)&gThread, NULL);
        ZwClose(handle);
    }
}

/* Each open of a file is sent to the program, its own too. */
static FLT_PREOP_CALLBACK_STATUS PreCreate(PFLT_CALLBACK_DATA Data, PCFLT_RELATED_OBJECTS FltObjects, PVOID *CompletionContext)
{
    ULONG word = 1, answer = 0, length = sizeof(answer);

    UNREFERENCED_PARAMETER(Data);
    UNREFERENCED_PARAMETER(FltObjects);
    UNREFERENCED_PARAMETER(CompletionContext);
    if (gAsks && gClient != NULL) {
        FltSendMessage(gFilter, &gClient, &word, sizeof(word), &answer, &length, NULL);
    }
    return FLT_PREOP_SUCCESS_NO_CALLBACK;
}

static FLT_PREOP_CALLBACK_STATUS PreFlush(PFLT_CALLBACK_DATA Data, PCFLT_RELATED_OBJECTS FltObjects, PVOID *CompletionContext)
{
    UNREFERENCED_PARAMETER(Data);
    UNREFERENCED_PARAMETER(FltObjects);
    UNREFERENCED_PARAMETER(CompletionContext);
    if (ExAcquireRundownProtection(&gRundown)) {
        ExWaitForRundownProtectionRelease(&gRundown);
        ExReleaseRundownProtection(&gRundown);
    }
    return FLT_PREOP_SUCCESS_NO_CALLBACK;
}

/* Each write is noted at the end of a log, from the top of the stack: that is a write. */
static VOID Note(VOID)
{
    UNICODE_STRING name = RTL_CONSTANT_STRING(L"\\Device\\v0\\log");
    OBJECT_ATTRIBUTES attributes;
    IO_STATUS_BLOCK done;
    HANDLE log;
    LARGE_INTEGER end;

    end.LowPart = FILE_WRITE_TO_END_OF_FILE;
    end.HighPart = -1;
    InitializeObjectAttributes(&attributes, &name, OBJ_KERNEL_HANDLE | OBJ_CASE_INSENSITIVE, NULL, NULL);
    if (!NT_SUCCESS(ZwCreateFile(&log, FILE_APPEND_DATA | SYNCHRONIZE, &attributes, &done, NULL, FILE_ATTRIBUTE_NORMAL, FILE_SHARE_VALID_FLAGS, FILE_OPEN_IF, FILE_SYNCHRONOUS_IO_NONALERT, NULL, 0))) {
        return;
    }
    ZwWriteFile(log, NULL, NULL, NULL, &done, "w", 1, &end, NULL);
    ZwClose(log);
}

static FLT_PREOP_CALLBACK_STATUS PreWrite(PFLT_CALLBACK_DATA Data, PCFLT_RELATED_OBJECTS FltObjects, PVOID *CompletionContext)
{
    UNREFERENCED_PARAMETER(FltObjects);
    UNREFERENCED_PARAMETER(CompletionContext);
    if (!FlagOn(Data->Iopb->IrpFlags, IRP_PAGING_IO)) {
        Note();
    }
    return FLT_PREOP_SUCCESS_NO_CALLBACK;
}

static NTSTATUS Connect(PFLT_PORT ClientPort, PVOID ServerCookie, PVOID Context, ULONG Size, PVOID *Cookie)
{
    UNREFERENCED_PARAMETER(ServerCookie);
    UNREFERENCED_PARAMETER(Context);
    UNREFERENCED_PARAMETER(Size);
    UNREFERENCED_PARAMETER(Cookie);
    gClient = ClientPort;
    gAsks = TRUE;
    return STATUS_SUCCESS;
}

static VOID Disconnect(PVOID Cookie)
{
    UNREFERENCED_PARAMETER(Cookie);
    gAsks = FALSE;
    FltCloseClientPort(gFilter, &gClient);
}

static NTSTATUS Unload(FLT_FILTER_UNLOAD_FLAGS Flags)
{
    UNREFERENCED_PARAMETER(Flags);
    FltCloseCommunicationPort(gPort);
    FltUnregisterFilter(gFilter);
    if (gThread != NULL) {
        KeWaitForSingleObject(gThread, Executive, KernelMode, FALSE, NULL);
        ObDereferenceObject(gThread);
    }
    return STATUS_SUCCESS;
}

static const FLT_OPERATION_REGISTRATION gOperations[] = {{IRP_MJ_CREATE, 0, PreCreate, NULL}, {IRP_MJ_FLUSH_BUFFERS, 0, PreFlush, NULL}, {IRP_MJ_WRITE, 0, PreWrite, NULL}, {IRP_MJ_OPERATION_END}};
static const FLT_REGISTRATION gRegistration = {sizeof(FLT_REGISTRATION), FLT_REGISTRATION_VERSION, 0, NULL, gOperations, Unload};

static NTSTATUS OpenPort(VOID)
{
    UNICODE_STRING name = RTL_CONSTANT_STRING(L"\\OwnPort");
    OBJECT_ATTRIBUTES attributes;
    PSECURITY_DESCRIPTOR descriptor;
    NTSTATUS status = FltBuildDefaultSecurityDescriptor(&descriptor, FLT_PORT_ALL_ACCESS);

    if (!NT_SUCCESS(status)) {
        return status;
    }
    InitializeObjectAttributes(&attributes, &name, OBJ_CASE_INSENSITIVE | OBJ_KERNEL_HANDLE, NULL, descriptor);
    status = FltCreateCommunicationPort(gFilter, &gPort, &attributes, NULL, Connect, Disconnect, NULL, 1);
    FltFreeSecurityDescriptor(descriptor);
    return status;
}

NTSTATUS DriverEntry(PDRIVER_OBJECT DriverObject, PUNICODE_STRING RegistryPath)
{
    NTSTATUS status = FltRegisterFilter(DriverObject, &gRegistration, &gFilter);

    UNREFERENCED_PARAMETER(RegistryPath);
    ExInitializeRundownProtection(&gRundown);
    KeInitializeEvent(&gStop, NotificationEvent, FALSE);
    gThread = NULL;
    gAsks = FALSE;
    if (!NT_SUCCESS(status)) {
        return status;
    }
    status = OpenPort();
    if (NT_SUCCESS(status)) {
        StartThread();
        status = FltStartFiltering(gFilter);
    }
    if (!NT_SUCCESS(status)) {
        FltUnregisterFilter(gFilter);
    }
    return status;
}
