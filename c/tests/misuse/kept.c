/* What is gone when a callback returns, what is the file system's own, and what of the kernel may not lie in memory that can be paged out. */
#include <fltKernel.h>

#define KEPT_TAG 'tpeK'

typedef struct _STREAM {
    KEVENT Done;
    ERESOURCE Resource;
    KSPIN_LOCK Lock;
    FAST_MUTEX Mutex;
} STREAM, *PSTREAM;

static PFLT_FILTER gFilter;
static KSPIN_LOCK gLock;
static PCFLT_RELATED_OBJECTS gObjects;
static ULONG gReads;

static VOID CountRead(VOID);
static FLT_POSTOP_CALLBACK_STATUS PostWrite(PFLT_CALLBACK_DATA Data, PCFLT_RELATED_OBJECTS FltObjects, PVOID CompletionContext, FLT_POST_OPERATION_FLAGS Flags);
#ifdef ALLOC_PRAGMA
#pragma alloc_text(PAGE, CountRead, PostWrite)
#endif

static VOID CountRead(VOID)
{
    gReads++;
}

/* Objects that the kernel waits for and spins on, in a paged context. */
static VOID MakeObjects(VOID)
{
    PSTREAM stream;
    KIRQL irql;

    if (!NT_SUCCESS(FltAllocateContext(gFilter, FLT_STREAM_CONTEXT, sizeof(STREAM), PagedPool, (PFLT_CONTEXT *)&stream))) {
        return;
    }
    KeInitializeEvent(&stream->Done, NotificationEvent, FALSE);
    ExInitializeResourceLite(&stream->Resource);
    ExInitializeFastMutex(&stream->Mutex);
    ExAcquireFastMutex(&stream->Mutex);
    ExReleaseFastMutex(&stream->Mutex);
    KeInitializeSpinLock(&stream->Lock);
    KeAcquireSpinLock(&stream->Lock, &irql);
    KeReleaseSpinLock(&stream->Lock, irql);
    ExDeleteResourceLite(&stream->Resource);
    FltReleaseContext(stream);
}

static VOID Work(PFLT_GENERIC_WORKITEM WorkItem, PVOID FltObject, PVOID Context)
{
    PFLT_CONTEXT context;

    UNREFERENCED_PARAMETER(FltObject);
    UNREFERENCED_PARAMETER(Context);
    if (NT_SUCCESS(FltGetInstanceContext(gObjects->Instance, &context))) {
        FltReleaseContext(context);
    }
    FltFreeGenericWorkItem(WorkItem);
}

static FLT_PREOP_CALLBACK_STATUS PreFlush(PFLT_CALLBACK_DATA Data, PCFLT_RELATED_OBJECTS FltObjects, PVOID *CompletionContext)
{
    PFLT_GENERIC_WORKITEM item = FltAllocateGenericWorkItem();

    UNREFERENCED_PARAMETER(Data);
    UNREFERENCED_PARAMETER(CompletionContext);
    MakeObjects();
    gObjects = FltObjects;
    if (item != NULL && !NT_SUCCESS(FltQueueGenericWorkItem(item, FltObjects->Instance, Work, DelayedWorkQueue, NULL))) {
        FltFreeGenericWorkItem(item);
    }
    return FLT_PREOP_SUCCESS_NO_CALLBACK;
}

static FLT_PREOP_CALLBACK_STATUS PreRead(PFLT_CALLBACK_DATA Data, PCFLT_RELATED_OBJECTS FltObjects, PVOID *CompletionContext)
{
    KIRQL irql;
    ULONG length = Data->Iopb->Parameters.Read.Length;
    PVOID volatile local = &length;

    FltObjects->FileObject->FsContext2 = FltObjects->Instance;
    KeAcquireSpinLock(&gLock, &irql);
    CountRead();
    KeReleaseSpinLock(&gLock, irql);
    *CompletionContext = local;
    return FLT_PREOP_SUCCESS_WITH_CALLBACK;
}

static FLT_POSTOP_CALLBACK_STATUS PostRead(PFLT_CALLBACK_DATA Data, PCFLT_RELATED_OBJECTS FltObjects, PVOID CompletionContext, FLT_POST_OPERATION_FLAGS Flags)
{
    UNREFERENCED_PARAMETER(Data);
    UNREFERENCED_PARAMETER(FltObjects);
    UNREFERENCED_PARAMETER(CompletionContext);
    UNREFERENCED_PARAMETER(Flags);
    return FLT_POSTOP_FINISHED_PROCESSING;
}

/* A write's is at DISPATCH_LEVEL too. */
static FLT_POSTOP_CALLBACK_STATUS PostWrite(PFLT_CALLBACK_DATA Data, PCFLT_RELATED_OBJECTS FltObjects, PVOID CompletionContext, FLT_POST_OPERATION_FLAGS Flags)
{
    UNREFERENCED_PARAMETER(Data);
    UNREFERENCED_PARAMETER(FltObjects);
    UNREFERENCED_PARAMETER(CompletionContext);
    UNREFERENCED_PARAMETER(Flags);
    return FLT_POSTOP_FINISHED_PROCESSING;
}

static NTSTATUS Unload(FLT_FILTER_UNLOAD_FLAGS Flags)
{
    UNREFERENCED_PARAMETER(Flags);
    FltUnregisterFilter(gFilter);
    return STATUS_SUCCESS;
}

static CONST FLT_CONTEXT_REGISTRATION Contexts[] = {{FLT_STREAM_CONTEXT, 0, NULL, sizeof(STREAM), KEPT_TAG}, {FLT_CONTEXT_END}};
static CONST FLT_OPERATION_REGISTRATION Callbacks[] = {
    {IRP_MJ_FLUSH_BUFFERS, 0, PreFlush}, {IRP_MJ_READ, 0, PreRead, PostRead}, {IRP_MJ_WRITE, 0, NULL, PostWrite}, {IRP_MJ_OPERATION_END}};
static CONST FLT_REGISTRATION Registration = {sizeof(FLT_REGISTRATION), FLT_REGISTRATION_VERSION, 0, Contexts, Callbacks, Unload};

NTSTATUS DriverEntry(PDRIVER_OBJECT DriverObject, PUNICODE_STRING RegistryPath)
{
    NTSTATUS status;

    UNREFERENCED_PARAMETER(RegistryPath);
    KeInitializeSpinLock(&gLock);
    status = FltRegisterFilter(DriverObject, &Registration, &gFilter);
    return NT_SUCCESS(status) ? FltStartFiltering(gFilter) : status;
}
