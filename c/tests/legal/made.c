/* The same structures as they are to be used: initialized before their first use and again between two, in memory that is freed once nothing of them is in use; resources under each call that disables APCs. */
#include <fltKernel.h>

#define MADE_TAG 'edaM'

typedef struct _BLOCK {
    KTIMER Timer;
    KDPC Dpc;
    KEVENT Event;
    KSEMAPHORE Semaphore;
    KMUTEX Kernel;
    FAST_MUTEX Mutex;
    ERESOURCE Resource;
    EX_PUSH_LOCK PushLock;
} BLOCK, *PBLOCK;

static PFLT_FILTER gFilterHandle;
static ERESOURCE gResource;
static LONG gCount;

static VOID Fired(PKDPC Dpc, PVOID DeferredContext, PVOID SystemArgument1, PVOID SystemArgument2)
{
    UNREFERENCED_PARAMETER(Dpc);
    UNREFERENCED_PARAMETER(SystemArgument1);
    UNREFERENCED_PARAMETER(SystemArgument2);
    KeSetEvent((PRKEVENT)DeferredContext, IO_NO_INCREMENT, FALSE);
}

static VOID Use(PBLOCK Block)
{
    LARGE_INTEGER soon = {.QuadPart = -10000}, later = {.QuadPart = -1000000000};

    KeInitializeEvent(&Block->Event, NotificationEvent, FALSE);
    KeInitializeEvent(&Block->Event, NotificationEvent, FALSE);
    KeInitializeDpc(&Block->Dpc, Fired, &Block->Event);
    KeInitializeTimer(&Block->Timer);
    KeSetTimer(&Block->Timer, soon, &Block->Dpc);
    KeWaitForSingleObject(&Block->Event, Executive, KernelMode, FALSE, NULL);
    KeInitializeTimerEx(&Block->Timer, SynchronizationTimer);
    KeSetTimer(&Block->Timer, later, NULL);
    KeCancelTimer(&Block->Timer);
    KeInitializeSemaphore(&Block->Semaphore, 0, 2);
    KeReleaseSemaphore(&Block->Semaphore, IO_NO_INCREMENT, 1, FALSE);
    KeWaitForSingleObject(&Block->Semaphore, Executive, KernelMode, FALSE, NULL);
}

static VOID Lock(PBLOCK Block)
{
    ExInitializeResourceLite(&Block->Resource);
    FltInitializePushLock(&Block->PushLock);
    ExInitializeFastMutex(&Block->Mutex);
    KeInitializeMutex(&Block->Kernel, 0);

    FltAcquireResourceExclusive(&Block->Resource);
    FltReleaseResource(&Block->Resource);
    FltAcquirePushLockExclusive(&Block->PushLock);
    ExAcquireResourceSharedLite(&Block->Resource, TRUE);
    ExReleaseResourceLite(&Block->Resource);
    FltReleasePushLock(&Block->PushLock);
    ExAcquireFastMutex(&Block->Mutex);
    ExAcquireResourceExclusiveLite(&Block->Resource, TRUE);
    ExReleaseResourceLite(&Block->Resource);
    ExReleaseFastMutex(&Block->Mutex);
    KeWaitForSingleObject(&Block->Kernel, Executive, KernelMode, FALSE, NULL);
    ExAcquireResourceSharedLite(&Block->Resource, TRUE);
    ExReleaseResourceLite(&Block->Resource);
    KeReleaseMutex(&Block->Kernel, FALSE);

    FltDeletePushLock(&Block->PushLock);
    ExDeleteResourceLite(&Block->Resource);
}

static FLT_PREOP_CALLBACK_STATUS PreWrite(PFLT_CALLBACK_DATA Data, PCFLT_RELATED_OBJECTS FltObjects, PVOID *CompletionContext)
{
    PBLOCK block = (PBLOCK)ExAllocatePoolWithTag(NonPagedPool, sizeof(BLOCK), MADE_TAG);

    UNREFERENCED_PARAMETER(Data);
    UNREFERENCED_PARAMETER(FltObjects);
    UNREFERENCED_PARAMETER(CompletionContext);
    if (!block) {
        return FLT_PREOP_SUCCESS_NO_CALLBACK;
    }
    Use(block);
    Lock(block);
    ExFreePoolWithTag(block, MADE_TAG);
    KeEnterCriticalRegion();
    ExAcquireResourceExclusiveLite(&gResource, TRUE);
    gCount++;
    ExReleaseResourceLite(&gResource);
    KeLeaveCriticalRegion();
    return FLT_PREOP_SUCCESS_NO_CALLBACK;
}

static NTSTATUS Unload(FLT_FILTER_UNLOAD_FLAGS Flags)
{
    UNREFERENCED_PARAMETER(Flags);
    FltUnregisterFilter(gFilterHandle);
    ExDeleteResourceLite(&gResource);
    return STATUS_SUCCESS;
}

static CONST FLT_OPERATION_REGISTRATION Callbacks[] = {{IRP_MJ_WRITE, 0, PreWrite}, {IRP_MJ_OPERATION_END}};
static CONST FLT_REGISTRATION Registration = {sizeof(FLT_REGISTRATION), FLT_REGISTRATION_VERSION, 0, NULL, Callbacks, Unload};

NTSTATUS DriverEntry(PDRIVER_OBJECT DriverObject, PUNICODE_STRING RegistryPath)
{
    NTSTATUS status;

    UNREFERENCED_PARAMETER(RegistryPath);
    ExInitializeResourceLite(&gResource);
    status = FltRegisterFilter(DriverObject, &Registration, &gFilterHandle);
    if (!NT_SUCCESS(status)) {
        ExDeleteResourceLite(&gResource);
        return status;
    }
    return FltStartFiltering(gFilterHandle);
}
