/* A scanner by sections: as a file is opened, a program is told of it, asks for a section of the file, maps it, looks at its bytes, and says whether they are foul. Then the open is
 * cancelled. Where no program is connected, or it takes longer than a second, the file is opened. */
#include <fltKernel.h>

#include "datascan.h"

#define DATASCAN_TAG 'nScD'

/* A scan lies on the stack of its postoperation, which waits for it. Commands find it in the list by its number, and keep it by its rundown protection. */
typedef struct _DATASCAN {
    LIST_ENTRY Links;
    ULONGLONG Id;
    PFLT_INSTANCE Instance;
    PFILE_OBJECT FileObject;
    EX_RUNDOWN_REF InUse;
    KEVENT Done;
    PFLT_CONTEXT Context; /* of its section, while that is open */
    PVOID Section;
    BOOLEAN IsFoul;
} DATASCAN, *PDATASCAN;

PFLT_FILTER gFilterHandle;
static PFLT_PORT gServerPort;
static PFLT_PORT gClientPort;
static FAST_MUTEX gLock; /* of the list, of what lies in it, and of the last number */
static LIST_ENTRY gScans;
static ULONGLONG gLastId;

/* ---- Commands of the program. */
static PDATASCAN FindScan(ULONGLONG Id)
{
    PDATASCAN found = NULL;

    ExAcquireFastMutex(&gLock);
    for (PLIST_ENTRY entry = gScans.Flink; entry != &gScans; entry = entry->Flink) {
        PDATASCAN scan = CONTAINING_RECORD(entry, DATASCAN, Links);
        if (scan->Id == Id && ExAcquireRundownProtection(&scan->InUse)) {
            found = scan;
            break;
        }
    }
    ExReleaseFastMutex(&gLock);
    return found;
}

/* Takes the section out of the scan, so that one alone closes it. */
static VOID CloseSection(PDATASCAN Scan)
{
    PFLT_CONTEXT context;
    PVOID section;

    ExAcquireFastMutex(&gLock);
    context = Scan->Context;
    section = Scan->Section;
    Scan->Context = NULL;
    ExReleaseFastMutex(&gLock);
    if (context != NULL) {
        ObDereferenceObject(section);
        FltCloseSectionForDataScan(context);
        FltReleaseContext(context);
    }
}

static NTSTATUS OpenSection(PDATASCAN Scan, PDATASCAN_SECTION Answer)
{
    PFLT_CONTEXT context;
    PVOID section;
    LARGE_INTEGER size;
    BOOLEAN isFirst;
    NTSTATUS status = FltAllocateContext(gFilterHandle, FLT_SECTION_CONTEXT, sizeof(ULONG), PagedPool, &context);

    if (!NT_SUCCESS(status)) {
        return status;
    }
    status = FltCreateSectionForDataScan(Scan->Instance, Scan->FileObject, context, SECTION_MAP_READ, NULL, NULL, PAGE_READONLY, SEC_COMMIT, 0, &Answer->Section, &section, &size);
    if (!NT_SUCCESS(status)) {
        FltReleaseContext(context);
        return status;
    }
    Answer->Size = size.QuadPart;
    ExAcquireFastMutex(&gLock);
    isFirst = Scan->Context == NULL;
    if (isFirst) {
        Scan->Context = context;
        Scan->Section = section;
    }
    ExReleaseFastMutex(&gLock);
    if (!isFirst) {
        ZwClose(Answer->Section);
        ObDereferenceObject(section);
        FltCloseSectionForDataScan(context);
        FltReleaseContext(context);
        return STATUS_INVALID_PARAMETER;
    }
    return STATUS_SUCCESS;
}

/* A message's buffers are the program's own, which may free them meanwhile: they are copied under a guard. */
static NTSTATUS TakeBytes(PVOID To, PVOID From, ULONG Length)
{
    NTSTATUS status = STATUS_SUCCESS;

    try {
        RtlCopyMemory(To, From, Length);
    } except (EXCEPTION_EXECUTE_HANDLER) {
        status = GetExceptionCode();
    }
    return status;
}

static NTSTATUS Carry(PDATASCAN Scan, PDATASCAN_COMMAND Command, PVOID Output, ULONG OutputLength, PULONG Returned)
{
    NTSTATUS status = STATUS_SUCCESS;
    DATASCAN_SECTION answer = {0};

    if (Command->Kind == DataScanOpen) {
        if (Output == NULL || OutputLength < sizeof(DATASCAN_SECTION)) {
            return STATUS_INVALID_PARAMETER;
        }
        status = OpenSection(Scan, &answer);
        if (NT_SUCCESS(status)) {
            status = TakeBytes(Output, &answer, sizeof(answer));
        }
        *Returned = NT_SUCCESS(status) ? sizeof(DATASCAN_SECTION) : 0;
    } else {
        CloseSection(Scan);
        Scan->IsFoul = Command->IsFoul;
        KeSetEvent(&Scan->Done, IO_NO_INCREMENT, FALSE);
    }
    return status;
}

static NTSTATUS Message(PVOID Cookie, PVOID Input, ULONG InputLength, PVOID Output, ULONG OutputLength, PULONG Returned)
{
    DATASCAN_COMMAND command;
    PDATASCAN scan;
    NTSTATUS status;

    UNREFERENCED_PARAMETER(Cookie);
    *Returned = 0;
    if (Input == NULL || InputLength != sizeof(DATASCAN_COMMAND)) {
        return STATUS_INVALID_PARAMETER;
    }
    status = TakeBytes(&command, Input, sizeof(command));
    if (!NT_SUCCESS(status)) {
        return status;
    }
    scan = FindScan(command.Id);
    if (scan == NULL) {
        return STATUS_NOT_FOUND;
    }
    status = Carry(scan, &command, Output, OutputLength, Returned);
    ExReleaseRundownProtection(&scan->InUse);
    return status;
}

static NTSTATUS Connect(PFLT_PORT ClientPort, PVOID ServerCookie, PVOID Context, ULONG ContextLength, PVOID *ConnectionCookie)
{
    UNREFERENCED_PARAMETER(ServerCookie);
    UNREFERENCED_PARAMETER(Context);
    UNREFERENCED_PARAMETER(ContextLength);
    UNREFERENCED_PARAMETER(ConnectionCookie);
    gClientPort = ClientPort;
    return STATUS_SUCCESS;
}

/* What the program has begun to scan has no verdict. */
static VOID Disconnect(PVOID ConnectionCookie)
{
    UNREFERENCED_PARAMETER(ConnectionCookie);
    ExAcquireFastMutex(&gLock);
    for (PLIST_ENTRY entry = gScans.Flink; entry != &gScans; entry = entry->Flink) {
        KeSetEvent(&CONTAINING_RECORD(entry, DATASCAN, Links)->Done, IO_NO_INCREMENT, FALSE);
    }
    ExReleaseFastMutex(&gLock);
    FltCloseClientPort(gFilterHandle, &gClientPort);
}

/* ---- Opens. */
static BOOLEAN ScanInProgram(PFLT_CALLBACK_DATA Data, PCFLT_RELATED_OBJECTS FltObjects)
{
    DATASCAN scan;
    DATASCAN_NOTICE notice;
    LARGE_INTEGER timeout;
    NTSTATUS status;

    RtlZeroMemory(&scan, sizeof(scan));
    scan.Instance = FltObjects->Instance;
    scan.FileObject = FltObjects->FileObject;
    ExInitializeRundownProtection(&scan.InUse);
    KeInitializeEvent(&scan.Done, NotificationEvent, FALSE);
    ExAcquireFastMutex(&gLock);
    notice.Id = scan.Id = ++gLastId;
    InsertTailList(&gScans, &scan.Links);
    ExReleaseFastMutex(&gLock);
    timeout.QuadPart = -10 * 1000 * 1000; /* one second */
    status = FltSendMessage(gFilterHandle, &gClientPort, &notice, sizeof(notice), NULL, NULL, &timeout);
    if (status == STATUS_SUCCESS) {
        FltCancellableWaitForSingleObject(&scan.Done, &timeout, Data);
    }
    ExAcquireFastMutex(&gLock);
    RemoveEntryList(&scan.Links);
    ExReleaseFastMutex(&gLock);
    ExWaitForRundownProtectionRelease(&scan.InUse);
    CloseSection(&scan);
    return scan.IsFoul;
}

static FLT_POSTOP_CALLBACK_STATUS PostCreate(PFLT_CALLBACK_DATA Data, PCFLT_RELATED_OBJECTS FltObjects, PVOID CompletionContext, FLT_POST_OPERATION_FLAGS Flags)
{
    UNREFERENCED_PARAMETER(CompletionContext);
    if (FlagOn(Flags, FLTFL_POST_OPERATION_DRAINING) || !NT_SUCCESS(Data->IoStatus.Status) || Data->IoStatus.Status == STATUS_REPARSE || gClientPort == NULL) {
        return FLT_POSTOP_FINISHED_PROCESSING;
    }
    if (ScanInProgram(Data, FltObjects)) {
        FltCancelFileOpen(FltObjects->Instance, FltObjects->FileObject);
        Data->IoStatus.Status = STATUS_VIRUS_INFECTED;
        Data->IoStatus.Information = 0;
        DbgPrint("DataScan: %wZ is foul\n", &FltObjects->FileObject->FileName);
    }
    return FLT_POSTOP_FINISHED_PROCESSING;
}

/* ---- The filter. */
static NTSTATUS Setup(PCFLT_RELATED_OBJECTS FltObjects, FLT_INSTANCE_SETUP_FLAGS Flags, DEVICE_TYPE VolumeDeviceType, FLT_FILESYSTEM_TYPE VolumeFilesystemType)
{
    UNREFERENCED_PARAMETER(Flags);
    UNREFERENCED_PARAMETER(VolumeDeviceType);
    UNREFERENCED_PARAMETER(VolumeFilesystemType);
    return FltRegisterForDataScan(FltObjects->Instance);
}

static NTSTATUS Unload(FLT_FILTER_UNLOAD_FLAGS Flags)
{
    UNREFERENCED_PARAMETER(Flags);
    FltCloseCommunicationPort(gServerPort);
    FltUnregisterFilter(gFilterHandle);
    return STATUS_SUCCESS;
}

static CONST FLT_OPERATION_REGISTRATION Operations[] = {{IRP_MJ_CREATE, 0, NULL, PostCreate}, {IRP_MJ_OPERATION_END}};

static CONST FLT_CONTEXT_REGISTRATION Contexts[] = {{FLT_SECTION_CONTEXT, 0, NULL, sizeof(ULONG), DATASCAN_TAG}, {FLT_CONTEXT_END}};

static CONST FLT_REGISTRATION Registration = {.Size = sizeof(FLT_REGISTRATION),
                                              .Version = FLT_REGISTRATION_VERSION,
                                              .ContextRegistration = Contexts,
                                              .OperationRegistration = Operations,
                                              .FilterUnloadCallback = Unload,
                                              .InstanceSetupCallback = Setup};

static NTSTATUS CreatePort(VOID)
{
    UNICODE_STRING name = RTL_CONSTANT_STRING(DATASCAN_PORT);
    OBJECT_ATTRIBUTES attributes;
    PSECURITY_DESCRIPTOR descriptor;
    NTSTATUS status = FltBuildDefaultSecurityDescriptor(&descriptor, FLT_PORT_ALL_ACCESS);

    if (!NT_SUCCESS(status)) {
        return status;
    }
    InitializeObjectAttributes(&attributes, &name, OBJ_KERNEL_HANDLE | OBJ_CASE_INSENSITIVE, NULL, descriptor);
    status = FltCreateCommunicationPort(gFilterHandle, &gServerPort, &attributes, NULL, Connect, Disconnect, Message, 1);
    FltFreeSecurityDescriptor(descriptor);
    return status;
}

NTSTATUS DriverEntry(PDRIVER_OBJECT DriverObject, PUNICODE_STRING RegistryPath)
{
    NTSTATUS status;

    UNREFERENCED_PARAMETER(RegistryPath);
    ExInitializeFastMutex(&gLock);
    InitializeListHead(&gScans);
    status = FltRegisterFilter(DriverObject, &Registration, &gFilterHandle);
    if (!NT_SUCCESS(status)) {
        return status;
    }
    status = CreatePort();
    if (NT_SUCCESS(status)) {
        status = FltStartFiltering(gFilterHandle);
        if (!NT_SUCCESS(status)) {
            FltCloseCommunicationPort(gServerPort);
        }
    }
    if (!NT_SUCCESS(status)) {
        FltUnregisterFilter(gFilterHandle);
    }
    return status;
}
