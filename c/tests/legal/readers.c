/* Who owns a resource may take it shared again, also where a writer waits; a call that starves writers gets it at once. A loop that tries for a second lock lets go of the first in between. */
#include "../misuse/schedules/small.h"

static ERESOURCE gResource;
static EX_PUSH_LOCK gPushLock;
static FAST_MUTEX gFirst, gSecond;
static LONG gUnder, gPushed, gTried;

static FLT_PREOP_CALLBACK_STATUS PreRead(PFLT_CALLBACK_DATA Data, PCFLT_RELATED_OBJECTS FltObjects, PVOID *CompletionContext)
{
    LONG seen;

    UNREFERENCED_PARAMETER(Data);
    UNREFERENCED_PARAMETER(FltObjects);
    UNREFERENCED_PARAMETER(CompletionContext);
    KeEnterCriticalRegion();
    ExAcquireResourceSharedLite(&gResource, TRUE);
    ExAcquireResourceSharedLite(&gResource, TRUE);
    ExAcquireSharedStarveExclusive(&gResource, TRUE);
    seen = gUnder;
    ExReleaseResourceLite(&gResource);
    ExReleaseResourceLite(&gResource);
    ExReleaseResourceLite(&gResource);
    KeLeaveCriticalRegion();
    FltAcquirePushLockShared(&gPushLock);
    seen += gPushed;
    FltReleasePushLock(&gPushLock);
    return seen < 0 ? FLT_PREOP_COMPLETE : FLT_PREOP_SUCCESS_NO_CALLBACK;
}

static FLT_PREOP_CALLBACK_STATUS PreWrite(PFLT_CALLBACK_DATA Data, PCFLT_RELATED_OBJECTS FltObjects, PVOID *CompletionContext)
{
    UNREFERENCED_PARAMETER(Data);
    UNREFERENCED_PARAMETER(FltObjects);
    UNREFERENCED_PARAMETER(CompletionContext);
    KeEnterCriticalRegion();
    ExAcquireResourceExclusiveLite(&gResource, TRUE);
    gUnder++;
    ExReleaseResourceLite(&gResource);
    KeLeaveCriticalRegion();
    FltAcquirePushLockExclusive(&gPushLock);
    gPushed++;
    FltReleasePushLock(&gPushLock);
    return FLT_PREOP_SUCCESS_NO_CALLBACK;
}

static FLT_PREOP_CALLBACK_STATUS PreFlush(PFLT_CALLBACK_DATA Data, PCFLT_RELATED_OBJECTS FltObjects, PVOID *CompletionContext)
{
    UNREFERENCED_PARAMETER(Data);
    UNREFERENCED_PARAMETER(FltObjects);
    UNREFERENCED_PARAMETER(CompletionContext);
    ExAcquireFastMutex(&gFirst);
    while (!ExTryToAcquireFastMutex(&gSecond)) {
        ExReleaseFastMutex(&gFirst);
        ExAcquireFastMutex(&gFirst);
    }
    gTried++;
    ExReleaseFastMutex(&gSecond);
    ExReleaseFastMutex(&gFirst);
    return FLT_PREOP_SUCCESS_NO_CALLBACK;
}

static FLT_PREOP_CALLBACK_STATUS PreQuery(PFLT_CALLBACK_DATA Data, PCFLT_RELATED_OBJECTS FltObjects, PVOID *CompletionContext)
{
    UNREFERENCED_PARAMETER(Data);
    UNREFERENCED_PARAMETER(FltObjects);
    UNREFERENCED_PARAMETER(CompletionContext);
    ExAcquireFastMutex(&gSecond);
    ExAcquireFastMutex(&gFirst);
    gTried++;
    ExReleaseFastMutex(&gFirst);
    ExReleaseFastMutex(&gSecond);
    return FLT_PREOP_SUCCESS_NO_CALLBACK;
}

static NTSTATUS UnloadAll(FLT_FILTER_UNLOAD_FLAGS Flags)
{
    UNREFERENCED_PARAMETER(Flags);
    FltUnregisterFilter(gFilter);
    ExDeleteResourceLite(&gResource);
    FltDeletePushLock(&gPushLock);
    return STATUS_SUCCESS;
}

static const FLT_OPERATION_REGISTRATION Operations[] = {
    {IRP_MJ_READ, 0, PreRead}, {IRP_MJ_WRITE, 0, PreWrite}, {IRP_MJ_FLUSH_BUFFERS, 0, PreFlush}, {IRP_MJ_QUERY_INFORMATION, 0, PreQuery}, {IRP_MJ_OPERATION_END}};

NTSTATUS DriverEntry(PDRIVER_OBJECT DriverObject, PUNICODE_STRING RegistryPath)
{
    FLT_REGISTRATION registration = {.Size = sizeof(FLT_REGISTRATION), .Version = FLT_REGISTRATION_VERSION, .OperationRegistration = Operations, .FilterUnloadCallback = UnloadAll, .InstanceQueryTeardownCallback = QueryTeardown};
    NTSTATUS status;

    UNREFERENCED_PARAMETER(RegistryPath);
    UNREFERENCED_PARAMETER(Register);
    UNREFERENCED_PARAMETER(Unload);
    ExInitializeResourceLite(&gResource);
    FltInitializePushLock(&gPushLock);
    ExInitializeFastMutex(&gFirst);
    ExInitializeFastMutex(&gSecond);
    status = FltRegisterFilter(DriverObject, &registration, &gFilter);
    if (NT_SUCCESS(status)) {
        status = FltStartFiltering(gFilter);
    } else {
        ExDeleteResourceLite(&gResource);
    }
    return status;
}
