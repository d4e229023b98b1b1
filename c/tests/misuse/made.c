/* Structures of the kit in a driver's own memory: each flush takes the next step. They are used before they are initialized, initialized while they are in use, or their memory is freed then; a volume
 * is used behind its end; a resource is acquired with APCs enabled. */
#include <fltKernel.h>

#define MADE_TAG 'edaM'

typedef struct _BLOCK {
    KTIMER Timer;
    KDPC Dpc;
    KEVENT Event;
    FAST_MUTEX Mutex;
    WORK_QUEUE_ITEM Work;
} BLOCK, *PBLOCK;

static PFLT_FILTER gFilterHandle;
static PFLT_VOLUME gVolume;
static KEVENT gEvent;
static KSEMAPHORE gSemaphore;
static KTIMER gTimer;
static KDPC gDpc;
static ERESOURCE gResource, gReady;
static FLT_CALLBACK_DATA_QUEUE gQueue;
static ULONG gStep;

static VOID Fired(PKDPC Dpc, PVOID DeferredContext, PVOID SystemArgument1, PVOID SystemArgument2)
{
    UNREFERENCED_PARAMETER(Dpc);
    UNREFERENCED_PARAMETER(DeferredContext);
    UNREFERENCED_PARAMETER(SystemArgument1);
    UNREFERENCED_PARAMETER(SystemArgument2);
}

static VOID Work(PVOID Parameter)
{
    UNREFERENCED_PARAMETER(Parameter);
}

static VOID Block(ULONG Number)
{
    LARGE_INTEGER due = {.QuadPart = -10000000};
    PBLOCK block = (PBLOCK)ExAllocatePoolWithTag(NonPagedPool, sizeof(BLOCK), MADE_TAG);

    if (!block) {
        return;
    }
    KeInitializeTimer(&block->Timer);
    KeInitializeDpc(&block->Dpc, Fired, NULL);
    ExInitializeFastMutex(&block->Mutex);
    ExInitializeWorkItem(&block->Work, Work, NULL);
    if (Number == 0) {
        KeSetTimer(&block->Timer, due, &block->Dpc);
    } else if (Number == 1) {
        ExAcquireFastMutex(&block->Mutex);
    } else {
        ExQueueWorkItem(&block->Work, DelayedWorkQueue);
    }
    ExFreePoolWithTag(block, MADE_TAG);
}

static VOID Step(ULONG Number)
{
    LARGE_INTEGER due = {.QuadPart = -10000000}, zero = {.QuadPart = 0};
    ULONG size;

    switch (Number) {
    case 0:
        KeSetEvent(&gEvent, 0, FALSE);
        break;
    case 1:
        KeReleaseSemaphore(&gSemaphore, 0, 1, FALSE);
        break;
    case 2:
        KeWaitForSingleObject(&gTimer, Executive, KernelMode, FALSE, &zero);
        break;
    case 3:
        KeInsertQueueDpc(&gDpc, NULL, NULL);
        break;
    case 4:
        KeEnterCriticalRegion();
        ExAcquireResourceSharedLite(&gResource, TRUE);
        ExReleaseResourceLite(&gResource);
        KeLeaveCriticalRegion();
        break;
    case 5:
        FltCbdqRemoveNextIo(&gQueue, NULL);
        break;
    case 6:
        KeInitializeTimer(&gTimer);
        KeSetTimer(&gTimer, due, NULL);
        KeInitializeTimer(&gTimer);
        break;
    case 7:
        Block(0);
        break;
    case 8:
        Block(1);
        break;
    case 9:
        ExAcquireResourceExclusiveLite(&gReady, TRUE);
        ExReleaseResourceLite(&gReady);
        break;
    case 10: /* The volume is dismounted meanwhile. */
        FltGetVolumeName(gVolume, NULL, &size);
        break;
    }
}

static FLT_PREOP_CALLBACK_STATUS PreFlush(PFLT_CALLBACK_DATA Data, PCFLT_RELATED_OBJECTS FltObjects, PVOID *CompletionContext)
{
    UNREFERENCED_PARAMETER(Data);
    UNREFERENCED_PARAMETER(FltObjects);
    UNREFERENCED_PARAMETER(CompletionContext);
    Step(gStep++);
    return FLT_PREOP_SUCCESS_NO_CALLBACK;
}

/* By an operation of its own: under threads the work item may have run before its memory is freed. */
static FLT_PREOP_CALLBACK_STATUS PreRead(PFLT_CALLBACK_DATA Data, PCFLT_RELATED_OBJECTS FltObjects, PVOID *CompletionContext)
{
    UNREFERENCED_PARAMETER(Data);
    UNREFERENCED_PARAMETER(FltObjects);
    UNREFERENCED_PARAMETER(CompletionContext);
    Block(2);
    return FLT_PREOP_SUCCESS_NO_CALLBACK;
}

static NTSTATUS Setup(PCFLT_RELATED_OBJECTS FltObjects, FLT_INSTANCE_SETUP_FLAGS Flags, DEVICE_TYPE VolumeDeviceType, FLT_FILESYSTEM_TYPE VolumeFilesystemType)
{
    UNREFERENCED_PARAMETER(Flags);
    UNREFERENCED_PARAMETER(VolumeDeviceType);
    UNREFERENCED_PARAMETER(VolumeFilesystemType);
    gVolume = FltObjects->Volume;
    return STATUS_SUCCESS;
}

static NTSTATUS Unload(FLT_FILTER_UNLOAD_FLAGS Flags)
{
    UNREFERENCED_PARAMETER(Flags);
    FltUnregisterFilter(gFilterHandle);
    ExDeleteResourceLite(&gReady);
    return STATUS_SUCCESS;
}

static CONST FLT_OPERATION_REGISTRATION Callbacks[] = {{IRP_MJ_FLUSH_BUFFERS, 0, PreFlush}, {IRP_MJ_READ, 0, PreRead}, {IRP_MJ_OPERATION_END}};
static CONST FLT_REGISTRATION Registration = {sizeof(FLT_REGISTRATION), FLT_REGISTRATION_VERSION, 0, NULL, Callbacks, Unload, Setup};

NTSTATUS DriverEntry(PDRIVER_OBJECT DriverObject, PUNICODE_STRING RegistryPath)
{
    NTSTATUS status;

    UNREFERENCED_PARAMETER(RegistryPath);
    ExInitializeResourceLite(&gReady);
    status = FltRegisterFilter(DriverObject, &Registration, &gFilterHandle);
    return NT_SUCCESS(status) ? FltStartFiltering(gFilterHandle) : status;
}
