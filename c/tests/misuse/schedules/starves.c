/* A flush lets go of a resource that a read waits for, and takes it again before those that wait. Only a read that goes on in between finds the door open. It might, and then it can't any more. */
#include "small.h"

static ERESOURCE gLock;
static volatile LONG gOpen, gSomebodyWaits;

static FLT_PREOP_CALLBACK_STATUS PreRead(PFLT_CALLBACK_DATA Data, PCFLT_RELATED_OBJECTS FltObjects, PVOID *CompletionContext)
{
    UNREFERENCED_PARAMETER(Data);
    UNREFERENCED_PARAMETER(FltObjects);
    UNREFERENCED_PARAMETER(CompletionContext);
    KeEnterCriticalRegion();
    ExAcquireResourceExclusiveLite(&gLock, TRUE);
    NT_ASSERT(!gOpen);
    ExReleaseResourceLite(&gLock);
    KeLeaveCriticalRegion();
    return FLT_PREOP_SUCCESS_NO_CALLBACK;
}

/* No new reader comes in while somebody waits for the resource alone: so it is seen that one does. */
static FLT_PREOP_CALLBACK_STATUS PreWrite(PFLT_CALLBACK_DATA Data, PCFLT_RELATED_OBJECTS FltObjects, PVOID *CompletionContext)
{
    UNREFERENCED_PARAMETER(Data);
    UNREFERENCED_PARAMETER(FltObjects);
    UNREFERENCED_PARAMETER(CompletionContext);
    KeEnterCriticalRegion();
    if (ExAcquireResourceSharedLite(&gLock, FALSE)) {
        ExReleaseResourceLite(&gLock);
    } else {
        InterlockedExchange(&gSomebodyWaits, 1);
    }
    KeLeaveCriticalRegion();
    return FLT_PREOP_SUCCESS_NO_CALLBACK;
}

static FLT_PREOP_CALLBACK_STATUS PreFlush(PFLT_CALLBACK_DATA Data, PCFLT_RELATED_OBJECTS FltObjects, PVOID *CompletionContext)
{
    UNREFERENCED_PARAMETER(Data);
    UNREFERENCED_PARAMETER(FltObjects);
    UNREFERENCED_PARAMETER(CompletionContext);
    KeEnterCriticalRegion();
    ExAcquireResourceSharedLite(&gLock, TRUE);
    if (InterlockedCompareExchange(&gSomebodyWaits, 0, 0) != 0) {
        InterlockedExchange(&gOpen, 1);
        ExReleaseResourceLite(&gLock);
        ExAcquireSharedStarveExclusive(&gLock, TRUE);
        InterlockedExchange(&gOpen, 0);
    }
    ExReleaseResourceLite(&gLock);
    KeLeaveCriticalRegion();
    return FLT_PREOP_SUCCESS_NO_CALLBACK;
}

static VOID TeardownStart(PCFLT_RELATED_OBJECTS FltObjects, FLT_INSTANCE_TEARDOWN_FLAGS Reason)
{
    UNREFERENCED_PARAMETER(FltObjects);
    UNREFERENCED_PARAMETER(Reason);
    ExDeleteResourceLite(&gLock);
}

static const FLT_OPERATION_REGISTRATION Operations[] = {{IRP_MJ_READ, 0, PreRead, NULL}, {IRP_MJ_WRITE, 0, PreWrite, NULL}, {IRP_MJ_FLUSH_BUFFERS, 0, PreFlush, NULL}, {IRP_MJ_OPERATION_END}};

NTSTATUS DriverEntry(PDRIVER_OBJECT DriverObject, PUNICODE_STRING RegistryPath)
{
    UNREFERENCED_PARAMETER(RegistryPath);
    ExInitializeResourceLite(&gLock);
    return Register(DriverObject, Operations, NULL, TeardownStart);
}
