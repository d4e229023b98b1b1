/* A thread's state that isn't what a call needs, or that isn't put back: each flush takes the next step. */
#include <fltKernel.h>

static PFLT_FILTER gFilter;
static KSPIN_LOCK gLock;
static FAST_MUTEX gMutex;
static KGUARDED_MUTEX gGuarded;
static EX_PUSH_LOCK gPushLock;
static KEVENT gEvent;
static ULONG gStep;

static VOID Ask(PCFLT_RELATED_OBJECTS FltObjects)
{
    FILE_STANDARD_INFORMATION standard;

    FltQueryInformationFile(FltObjects->Instance, FltObjects->FileObject, &standard, sizeof(standard), FileStandardInformation, NULL);
}

static VOID WaitForOwn(VOID)
{
    KEVENT event;

    KeInitializeEvent(&event, NotificationEvent, TRUE);
    KeWaitForSingleObject(&event, UserRequest, UserMode, FALSE, NULL);
}

static VOID Visit(PFLT_GENERIC_WORKITEM Item, PVOID Object, PVOID Context)
{
    KAPC_STATE state;

    UNREFERENCED_PARAMETER(Object);
    KeStackAttachProcess((PKPROCESS)Context, &state);
    FltFreeGenericWorkItem(Item);
}

static VOID VisitLater(PFLT_CALLBACK_DATA Data, PCFLT_RELATED_OBJECTS FltObjects)
{
    PFLT_GENERIC_WORKITEM item = FltAllocateGenericWorkItem();

    if (item != NULL && !NT_SUCCESS(FltQueueGenericWorkItem(item, FltObjects->Instance, Visit, DelayedWorkQueue, FltGetRequestorProcess(Data)))) {
        FltFreeGenericWorkItem(item);
    }
}

static VOID TakeState(PFLT_CALLBACK_DATA Data, PCFLT_RELATED_OBJECTS FltObjects)
{
    KAPC_STATE state;
    PFLT_CONTEXT context;
    KIRQL irql;

    switch (gStep++) {
    case 0:
        KeEnterGuardedRegion();
        Ask(FltObjects);
        KeLeaveGuardedRegion();
        break;
    case 1:
        KeAcquireGuardedMutex(&gGuarded);
        Ask(FltObjects);
        KeReleaseGuardedMutex(&gGuarded);
        break;
    case 2:
        ExAcquireFastMutexUnsafe(&gMutex);
        ExReleaseFastMutexUnsafe(&gMutex);
        break;
    case 3:
        ExAcquirePushLockExclusive(&gPushLock);
        ExReleasePushLockExclusive(&gPushLock);
        break;
    case 4:
        ExAcquirePushLockShared(&gPushLock);
        ExReleasePushLockShared(&gPushLock);
        break;
    case 5:
        KeAcquireSpinLockAtDpcLevel(&gLock);
        KeReleaseSpinLockFromDpcLevel(&gLock);
        break;
    case 6:
        KeAcquireSpinLock(&gLock, &irql);
        KeReleaseSpinLockFromDpcLevel(&gLock);
        break;
    case 7:
        KeSetEvent(&gEvent, IO_NO_INCREMENT, TRUE);
        break;
    case 8:
        KeSetEvent(&gEvent, IO_NO_INCREMENT, TRUE);
        if (NT_SUCCESS(FltGetStreamContext(FltObjects->Instance, FltObjects->FileObject, &context))) {
            FltReleaseContext(context);
        }
        KeWaitForSingleObject(&gEvent, Executive, KernelMode, FALSE, NULL);
        break;
    case 9:
        WaitForOwn();
        break;
    case 10:
        KeStackAttachProcess((PKPROCESS)PsInitialSystemProcess, &state);
        break;
    case 11:
        KeEnterGuardedRegion();
        break;
    case 12:
        IoSetTopLevelIrp((PIRP)FSRTL_FSP_TOP_LEVEL_IRP);
        break;
    case 13:
        VisitLater(Data, FltObjects);
        break;
    }
}

static FLT_PREOP_CALLBACK_STATUS PreFlush(PFLT_CALLBACK_DATA Data, PCFLT_RELATED_OBJECTS FltObjects, PVOID *CompletionContext)
{
    UNREFERENCED_PARAMETER(CompletionContext);
    TakeState(Data, FltObjects);
    return FLT_PREOP_SUCCESS_NO_CALLBACK;
}

static NTSTATUS Unload(FLT_FILTER_UNLOAD_FLAGS Flags)
{
    UNREFERENCED_PARAMETER(Flags);
    FltUnregisterFilter(gFilter);
    return STATUS_SUCCESS;
}

static const FLT_OPERATION_REGISTRATION gOperations[] = {{IRP_MJ_FLUSH_BUFFERS, 0, PreFlush, NULL}, {IRP_MJ_OPERATION_END}};
static const FLT_REGISTRATION gRegistration = {sizeof(FLT_REGISTRATION), FLT_REGISTRATION_VERSION, 0, NULL, gOperations, Unload};

NTSTATUS DriverEntry(PDRIVER_OBJECT DriverObject, PUNICODE_STRING RegistryPath)
{
    NTSTATUS status = FltRegisterFilter(DriverObject, &gRegistration, &gFilter);

    UNREFERENCED_PARAMETER(RegistryPath);
    KeInitializeSpinLock(&gLock);
    ExInitializeFastMutex(&gMutex);
    KeInitializeGuardedMutex(&gGuarded);
    ExInitializePushLock(&gPushLock);
    KeInitializeEvent(&gEvent, NotificationEvent, FALSE);
    if (NT_SUCCESS(status)) {
        status = FltStartFiltering(gFilter);
        if (!NT_SUCCESS(status)) {
            FltUnregisterFilter(gFilter);
        }
    }
    return status;
}
