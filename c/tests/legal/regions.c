/* A thread's state as each call needs it, put back on every path: regions, push locks, fast mutexes that don't raise the IRQL, spin locks for who is at DISPATCH_LEVEL, waits that were said before, and
 * another process. A flush fails if a region isn't what the kit says that it is. */
#include <fltKernel.h>

static PFLT_FILTER gFilter;
static KSPIN_LOCK gLock, gOther;
static FAST_MUTEX gMutex;
static KGUARDED_MUTEX gGuarded;
static EX_PUSH_LOCK gPushLock;
static KEVENT gEvent;
static ULONG gCount;

static BOOLEAN AreRegionsRight(VOID)
{
    BOOLEAN isRight = !KeAreApcsDisabled() && !KeAreAllApcsDisabled();

    KeEnterCriticalRegion();
    isRight = isRight && KeAreApcsDisabled() && !KeAreAllApcsDisabled();
    KeEnterGuardedRegion();
    isRight = isRight && KeAreApcsDisabled() && KeAreAllApcsDisabled();
    KeLeaveGuardedRegion();
    KeLeaveCriticalRegion();
    ExAcquireFastMutex(&gMutex);
    isRight = isRight && !KeAreApcsDisabled() && KeAreAllApcsDisabled();
    ExReleaseFastMutex(&gMutex);
    return isRight && !KeAreApcsDisabled();
}

static VOID Count(VOID)
{
    KIRQL irql;
    KLOCK_QUEUE_HANDLE queued;

    KeEnterCriticalRegion();
    ExAcquireFastMutexUnsafe(&gMutex);
    gCount++;
    ExReleaseFastMutexUnsafe(&gMutex);
    ExAcquirePushLockShared(&gPushLock);
    ExReleasePushLockShared(&gPushLock);
    ExAcquirePushLockExclusive(&gPushLock);
    ExReleasePushLockExclusive(&gPushLock);
    KeLeaveCriticalRegion();
    KeAcquireGuardedMutex(&gGuarded);
    KeReleaseGuardedMutex(&gGuarded);
    KeAcquireSpinLock(&gLock, &irql);
    KeAcquireSpinLockAtDpcLevel(&gOther);
    KeReleaseSpinLockFromDpcLevel(&gOther);
    KeAcquireInStackQueuedSpinLockAtDpcLevel(&gOther, &queued);
    KeReleaseInStackQueuedSpinLockFromDpcLevel(&queued);
    KeReleaseSpinLockFromDpcLevel(&gLock);
    KeLowerIrql(irql);
    KeRaiseIrql(DISPATCH_LEVEL, &irql);
    KeAcquireSpinLockAtDpcLevel(&gLock);
    KeReleaseSpinLock(&gLock, DISPATCH_LEVEL);
    KeLowerIrql(irql);
}

static VOID Visit(PEPROCESS Process)
{
    KAPC_STATE state;
    PIRP top = IoGetTopLevelIrp();

    IoSetTopLevelIrp((PIRP)FSRTL_FSP_TOP_LEVEL_IRP);
    IoSetTopLevelIrp(top);
    KeStackAttachProcess((PKPROCESS)Process, &state);
    KeUnstackDetachProcess(&state);
}

static FLT_PREOP_CALLBACK_STATUS PreFlush(PFLT_CALLBACK_DATA Data, PCFLT_RELATED_OBJECTS FltObjects, PVOID *CompletionContext)
{
    UNREFERENCED_PARAMETER(FltObjects);
    UNREFERENCED_PARAMETER(CompletionContext);
    Count();
    Visit(FltGetRequestorProcess(Data));
    KeSetEvent(&gEvent, IO_NO_INCREMENT, TRUE);
    KeWaitForSingleObject(&gEvent, UserRequest, UserMode, FALSE, NULL);
    if (AreRegionsRight()) {
        return FLT_PREOP_SUCCESS_NO_CALLBACK;
    }
    Data->IoStatus.Status = STATUS_INTERNAL_ERROR;
    return FLT_PREOP_COMPLETE;
}

static NTSTATUS Unload(FLT_FILTER_UNLOAD_FLAGS Flags)
{
    UNREFERENCED_PARAMETER(Flags);
    FltUnregisterFilter(gFilter);
    return STATUS_SUCCESS;
}

static const FLT_OPERATION_REGISTRATION gOperations[] = {{IRP_MJ_FLUSH_BUFFERS, 0, PreFlush, NULL}, {IRP_MJ_OPERATION_END}};
static const FLT_REGISTRATION gRegistration = {sizeof(FLT_REGISTRATION), FLT_REGISTRATION_VERSION, 0, NULL, gOperations, Unload};

NTSTATUS DriverEntry(PDRIVER_OBJECT DriverObject, PUNICODE_STRING RegistryPath)
{
    NTSTATUS status = FltRegisterFilter(DriverObject, &gRegistration, &gFilter);

    UNREFERENCED_PARAMETER(RegistryPath);
    KeInitializeSpinLock(&gLock);
    KeInitializeSpinLock(&gOther);
    ExInitializeFastMutex(&gMutex);
    KeInitializeGuardedMutex(&gGuarded);
    ExInitializePushLock(&gPushLock);
    KeInitializeEvent(&gEvent, NotificationEvent, FALSE);
    if (NT_SUCCESS(status)) {
        status = FltStartFiltering(gFilter);
        if (!NT_SUCCESS(status)) {
            FltUnregisterFilter(gFilter);
        }
    }
    return status;
}
