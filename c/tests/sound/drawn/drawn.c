/* A driver that does what a scenario draws. A write at offset N keeps its text as program N, and a read at offset N carries it out: a letter and a digit for each act, as draw.py names them. What
 * a program sees goes into one number, which is printed at its end. So schedules that differ in anything that an act sees have different ends. */
#include "drawn.h"

DRAWN gDrawn;
static FLT_CALLBACK_DATA_QUEUE gQueue;
static FAST_MUTEX gQueueLock;
static LIST_ENTRY gQueueHead;

VOID See(PRUN Run, ULONG Value)
{
    Run->Seen = Run->Seen * 31 + Value;
}

LARGE_INTEGER *After(LARGE_INTEGER *Time, LONG Milliseconds)
{
    Time->QuadPart = -10000LL * Milliseconds;
    return Time;
}

static VOID DoOf(const ACTS *Acts, PRUN Run, UCHAR Letter, UCHAR X)
{
    for (ULONG at = 0; at < Acts->Count; at++) {
        if (Acts->All[at].Letter == Letter) {
            Acts->All[at].Do(Run, X);
            return;
        }
    }
}

RUN CarryOut(PCFLT_RELATED_OBJECTS Objects, ULONG Number)
{
    static const ACTS *const all[] = {&gMemoryActs, &gWaitActs, &gLockActs, &gBesideActs, &gObjectActs};
    RUN run = {.Objects = Objects, .Number = Number, .Seen = 7};
    const UCHAR *program = gDrawn.Programs[Number % PROGRAMS];

    for (ULONG at = 0; at + 1 < LENGTH && program[at] != 0; at += 2) {
        BOOLEAN skips = run.Skips;

        run.Skips = FALSE;
        for (ULONG which = 0; which < ARRAYSIZE(all) && !skips; which++) {
            DoOf(all[which], &run, program[at], program[at + 1] & 3);
        }
    }
    EndOfRun(&run);
    DbgPrint("%u saw %u\n", Number, run.Seen);
    return run;
}

/* ---- The queue of what waits for a flush. */
static VOID QueueTake(PFLT_CALLBACK_DATA_QUEUE Queue, PKIRQL Irql) { UNREFERENCED_PARAMETER(Queue); UNREFERENCED_PARAMETER(Irql); ExAcquireFastMutex(&gQueueLock); }
static VOID QueueGive(PFLT_CALLBACK_DATA_QUEUE Queue, KIRQL Irql) { UNREFERENCED_PARAMETER(Queue); UNREFERENCED_PARAMETER(Irql); ExReleaseFastMutex(&gQueueLock); }
static VOID QueueRemove(PFLT_CALLBACK_DATA_QUEUE Queue, PFLT_CALLBACK_DATA Data) { UNREFERENCED_PARAMETER(Queue); RemoveEntryList(&Data->QueueLinks); }

static NTSTATUS QueueInsert(PFLT_CALLBACK_DATA_QUEUE Queue, PFLT_CALLBACK_DATA Data, PVOID Context)
{
    UNREFERENCED_PARAMETER(Queue);
    UNREFERENCED_PARAMETER(Context);
    InsertTailList(&gQueueHead, &Data->QueueLinks);
    return STATUS_SUCCESS;
}

static PFLT_CALLBACK_DATA QueuePeek(PFLT_CALLBACK_DATA_QUEUE Queue, PFLT_CALLBACK_DATA Data, PVOID Context)
{
    PLIST_ENTRY next = Data == NULL ? gQueueHead.Flink : Data->QueueLinks.Flink;

    UNREFERENCED_PARAMETER(Queue);
    UNREFERENCED_PARAMETER(Context);
    return next == &gQueueHead ? NULL : CONTAINING_RECORD(next, FLT_CALLBACK_DATA, QueueLinks);
}

static VOID QueueCancelled(PFLT_CALLBACK_DATA_QUEUE Queue, PFLT_CALLBACK_DATA Data)
{
    UNREFERENCED_PARAMETER(Queue);
    Data->IoStatus.Status = STATUS_CANCELLED;
    FltCompletePendedPreOperation(Data, FLT_PREOP_COMPLETE, NULL);
}

static VOID LetAllGoOn(VOID)
{
    PFLT_CALLBACK_DATA data;

    while ((data = FltCbdqRemoveNextIo(&gQueue, NULL)) != NULL) {
        FltCompletePendedPreOperation(data, FLT_PREOP_SUCCESS_NO_CALLBACK, NULL);
    }
}

/* ---- Callbacks. */
static VOID GoOn(PFLT_DEFERRED_IO_WORKITEM Item, PFLT_CALLBACK_DATA Data, PVOID Context)
{
    UNREFERENCED_PARAMETER(Context);
    InterlockedIncrement(&gDrawn.Cells[3]);
    FltCompletePendedPreOperation(Data, FLT_PREOP_SUCCESS_NO_CALLBACK, NULL);
    FltFreeDeferredIoWorkItem(Item);
}

static BOOLEAN GoesOnLater(PFLT_CALLBACK_DATA Data)
{
    PFLT_DEFERRED_IO_WORKITEM item = FltAllocateDeferredIoWorkItem();
    BOOLEAN isQueued = item != NULL && NT_SUCCESS(FltQueueDeferredIoWorkItem(item, Data, GoOn, DelayedWorkQueue, NULL));

    if (item != NULL && !isQueued) {
        FltFreeDeferredIoWorkItem(item);
    }
    return isQueued;
}

static FLT_PREOP_CALLBACK_STATUS PreRead(PFLT_CALLBACK_DATA Data, PCFLT_RELATED_OBJECTS FltObjects, PVOID *CompletionContext)
{
    RUN run = CarryOut(FltObjects, Data->Iopb->Parameters.Read.ByteOffset.LowPart);

    UNREFERENCED_PARAMETER(CompletionContext);
    if (run.Defers) {
        return GoesOnLater(Data) ? FLT_PREOP_PENDING : FLT_PREOP_SUCCESS_NO_CALLBACK;
    }
    return run.Pends && NT_SUCCESS(FltCbdqInsertIo(&gQueue, Data, NULL, NULL)) ? FLT_PREOP_PENDING : FLT_PREOP_SUCCESS_NO_CALLBACK;
}

static FLT_PREOP_CALLBACK_STATUS PreWrite(PFLT_CALLBACK_DATA Data, PCFLT_RELATED_OBJECTS FltObjects, PVOID *CompletionContext)
{
    ULONG number = Data->Iopb->Parameters.Write.ByteOffset.LowPart % PROGRAMS, length = Data->Iopb->Parameters.Write.Length;

    UNREFERENCED_PARAMETER(FltObjects);
    UNREFERENCED_PARAMETER(CompletionContext);
    for (ULONG at = 0; at < LENGTH; at++) {
        gDrawn.Programs[number][at] = at < length ? ((PUCHAR)Data->Iopb->Parameters.Write.WriteBuffer)[at] : 0;
    }
    return FLT_PREOP_SUCCESS_NO_CALLBACK;
}

static FLT_PREOP_CALLBACK_STATUS PreFlush(PFLT_CALLBACK_DATA Data, PCFLT_RELATED_OBJECTS FltObjects, PVOID *CompletionContext)
{
    UNREFERENCED_PARAMETER(Data);
    UNREFERENCED_PARAMETER(FltObjects);
    UNREFERENCED_PARAMETER(CompletionContext);
    SetAllEvents();
    LetAllGoOn();
    return FLT_PREOP_SUCCESS_NO_CALLBACK;
}

static NTSTATUS Connect(PFLT_PORT ClientPort, PVOID ServerPortCookie, PVOID ConnectionContext, ULONG SizeOfContext, PVOID *ConnectionPortCookie)
{
    UNREFERENCED_PARAMETER(ServerPortCookie);
    UNREFERENCED_PARAMETER(ConnectionContext);
    UNREFERENCED_PARAMETER(SizeOfContext);
    *ConnectionPortCookie = NULL;
    gDrawn.ClientPort = ClientPort;
    return STATUS_SUCCESS;
}

static VOID Disconnect(PVOID ConnectionCookie)
{
    UNREFERENCED_PARAMETER(ConnectionCookie);
    FltCloseClientPort(gDrawn.Filter, &gDrawn.ClientPort);
}

static NTSTATUS Message(PVOID PortCookie, PVOID InputBuffer, ULONG InputBufferLength, PVOID OutputBuffer, ULONG OutputBufferLength, PULONG ReturnOutputBufferLength)
{
    UNREFERENCED_PARAMETER(PortCookie);
    UNREFERENCED_PARAMETER(InputBuffer);
    UNREFERENCED_PARAMETER(InputBufferLength);
    UNREFERENCED_PARAMETER(OutputBuffer);
    UNREFERENCED_PARAMETER(OutputBufferLength);
    CarryOut(NULL, OF_MESSAGE);
    *ReturnOutputBufferLength = 0;
    return STATUS_SUCCESS;
}

static NTSTATUS InstanceSetup(PCFLT_RELATED_OBJECTS FltObjects, FLT_INSTANCE_SETUP_FLAGS Flags, DEVICE_TYPE VolumeDeviceType, FLT_FILESYSTEM_TYPE VolumeFilesystemType)
{
    UNREFERENCED_PARAMETER(Flags);
    UNREFERENCED_PARAMETER(VolumeDeviceType);
    UNREFERENCED_PARAMETER(VolumeFilesystemType);
    return FltCbdqInitialize(FltObjects->Instance, &gQueue, QueueInsert, QueueRemove, QueuePeek, QueueTake, QueueGive, QueueCancelled);
}

static NTSTATUS QueryTeardown(PCFLT_RELATED_OBJECTS FltObjects, FLT_INSTANCE_QUERY_TEARDOWN_FLAGS Flags)
{
    UNREFERENCED_PARAMETER(FltObjects);
    UNREFERENCED_PARAMETER(Flags);
    return STATUS_SUCCESS;
}

static VOID TeardownStart(PCFLT_RELATED_OBJECTS FltObjects, FLT_INSTANCE_TEARDOWN_FLAGS Reason)
{
    UNREFERENCED_PARAMETER(FltObjects);
    UNREFERENCED_PARAMETER(Reason);
    FltCbdqDisable(&gQueue);
    LetAllGoOn();
}

static NTSTATUS Unload(FLT_FILTER_UNLOAD_FLAGS Flags)
{
    UNREFERENCED_PARAMETER(Flags);
    if (gDrawn.ServerPort != NULL) {
        FltCloseCommunicationPort(gDrawn.ServerPort);
    }
    FltUnregisterFilter(gDrawn.Filter);
    EndBeside();
    EndMemory();
    EndLocks();
    DbgPrint("at the end %d %d %d %d %d\n", gDrawn.Cells[0], gDrawn.Cells[1], gDrawn.Cells[2], gDrawn.Cells[3], gDrawn.Plain);
    return STATUS_SUCCESS;
}

static const FLT_OPERATION_REGISTRATION Operations[] = {{IRP_MJ_READ, 0, PreRead, NULL}, {IRP_MJ_WRITE, 0, PreWrite, NULL}, {IRP_MJ_FLUSH_BUFFERS, 0, PreFlush, NULL}, {IRP_MJ_OPERATION_END}};
static const FLT_CONTEXT_REGISTRATION Contexts[] = {{FLT_STREAM_CONTEXT, 0, NULL, sizeof(LONG), TAG}, {FLT_CONTEXT_END}};
static const FLT_REGISTRATION Registration = {.Size = sizeof(FLT_REGISTRATION), .Version = FLT_REGISTRATION_VERSION, .ContextRegistration = Contexts, .OperationRegistration = Operations,
    .FilterUnloadCallback = Unload, .InstanceSetupCallback = InstanceSetup, .InstanceQueryTeardownCallback = QueryTeardown, .InstanceTeardownStartCallback = TeardownStart};

static NTSTATUS OpenPort(VOID)
{
    static UNICODE_STRING name = RTL_CONSTANT_STRING(L"\\DrawnPort");
    PSECURITY_DESCRIPTOR descriptor;
    OBJECT_ATTRIBUTES attributes;
    NTSTATUS status = FltBuildDefaultSecurityDescriptor(&descriptor, FLT_PORT_ALL_ACCESS);

    if (NT_SUCCESS(status)) {
        InitializeObjectAttributes(&attributes, &name, OBJ_KERNEL_HANDLE | OBJ_CASE_INSENSITIVE, NULL, descriptor);
        status = FltCreateCommunicationPort(gDrawn.Filter, &gDrawn.ServerPort, &attributes, NULL, Connect, Disconnect, Message, 2);
        FltFreeSecurityDescriptor(descriptor);
    }
    return status;
}

NTSTATUS DriverEntry(PDRIVER_OBJECT DriverObject, PUNICODE_STRING RegistryPath)
{
    NTSTATUS status = FltRegisterFilter(DriverObject, &Registration, &gDrawn.Filter);

    UNREFERENCED_PARAMETER(RegistryPath);
    if (!NT_SUCCESS(status)) {
        return status;
    }
    BeginMemory();
    BeginWaits();
    BeginLocks();
    BeginBeside();
    ExInitializeFastMutex(&gQueueLock);
    InitializeListHead(&gQueueHead);
    status = OpenPort();
    if (NT_SUCCESS(status)) {
        status = FltStartFiltering(gDrawn.Filter);
    }
    if (!NT_SUCCESS(status)) {
        FltUnregisterFilter(gDrawn.Filter);
    }
    return status;
}
