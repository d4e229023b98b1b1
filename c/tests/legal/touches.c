/* Memory that is touched where it may be: what isn't paged at DISPATCH_LEVEL, what is paged under a fast mutex; a caller's own buffer in its process under a guard, and by an MDL in a work item and at
 * DISPATCH_LEVEL; a copy of a name, by code that can be paged out; an event that is resident. Nothing of it is told. */
#include <fltKernel.h>

#define TOUCHES_TAG 'cuoT'

typedef struct _STREAM {
    KEVENT Done;
    ULONG Reads;
} STREAM, *PSTREAM;

static PFLT_FILTER gFilter;
static KSPIN_LOCK gLock;
static FAST_MUTEX gMutex;
static PUCHAR gPaged, gResident;
static ULONG gSum;

static VOID CopyName(PFLT_CALLBACK_DATA Data);
#ifdef ALLOC_PRAGMA
#pragma alloc_text(PAGE, CopyName)
#endif

static VOID CopyName(PFLT_CALLBACK_DATA Data)
{
    PFLT_FILE_NAME_INFORMATION name;
    UNICODE_STRING copy;

    PAGED_CODE();
    if (!NT_SUCCESS(FltGetFileNameInformation(Data, FLT_FILE_NAME_NORMALIZED | FLT_FILE_NAME_QUERY_DEFAULT, &name))) {
        return;
    }
    FltParseFileNameInformation(name);
    copy.Length = 0;
    copy.MaximumLength = name->Name.Length;
    copy.Buffer = ExAllocatePoolWithTag(PagedPool, copy.MaximumLength, TOUCHES_TAG);
    if (copy.Buffer != NULL) {
        RtlCopyUnicodeString(&copy, &name->Name);
        RtlUpcaseUnicodeString(&copy, &copy, FALSE);
        ExFreePoolWithTag(copy.Buffer, TOUCHES_TAG);
    }
    FltReleaseFileNameInformation(name);
}

static FLT_POSTOP_CALLBACK_STATUS PostCreate(PFLT_CALLBACK_DATA Data, PCFLT_RELATED_OBJECTS FltObjects, PVOID CompletionContext, FLT_POST_OPERATION_FLAGS Flags)
{
    PSTREAM stream;

    UNREFERENCED_PARAMETER(CompletionContext);
    if (FlagOn(Flags, FLTFL_POST_OPERATION_DRAINING) || !NT_SUCCESS(Data->IoStatus.Status)) {
        return FLT_POSTOP_FINISHED_PROCESSING;
    }
    CopyName(Data);
    if (NT_SUCCESS(FltAllocateContext(gFilter, FLT_STREAM_CONTEXT, sizeof(STREAM), NonPagedPoolNx, (PFLT_CONTEXT *)&stream))) {
        stream->Reads = 0;
        KeInitializeEvent(&stream->Done, NotificationEvent, FALSE);
        FltSetStreamContext(FltObjects->Instance, FltObjects->FileObject, FLT_SET_CONTEXT_KEEP_IF_EXISTS, stream, NULL);
        FltReleaseContext(stream);
    }
    return FLT_POSTOP_FINISHED_PROCESSING;
}

static FLT_PREOP_CALLBACK_STATUS PreFlush(PFLT_CALLBACK_DATA Data, PCFLT_RELATED_OBJECTS FltObjects, PVOID *CompletionContext)
{
    KIRQL irql;

    UNREFERENCED_PARAMETER(Data);
    UNREFERENCED_PARAMETER(FltObjects);
    UNREFERENCED_PARAMETER(CompletionContext);
    ExAcquireFastMutex(&gMutex);
    gPaged[0]++;
    ExReleaseFastMutex(&gMutex);
    KeAcquireSpinLock(&gLock, &irql);
    RtlCopyMemory(gResident, gResident + 8, 8);
    KeReleaseSpinLock(&gLock, irql);
    return FLT_PREOP_SUCCESS_NO_CALLBACK;
}

static FLT_PREOP_CALLBACK_STATUS PreRead(PFLT_CALLBACK_DATA Data, PCFLT_RELATED_OBJECTS FltObjects, PVOID *CompletionContext)
{
    UNREFERENCED_PARAMETER(Data);
    if (!NT_SUCCESS(FltGetStreamContext(FltObjects->Instance, FltObjects->FileObject, CompletionContext))) {
        return FLT_PREOP_SUCCESS_NO_CALLBACK;
    }
    return FLT_PREOP_SUCCESS_WITH_CALLBACK;
}

/* The memory that an MDL describes, at any IRQL; the caller's own below DISPATCH_LEVEL, in a system thread only once it is locked. */
static VOID Look(PFLT_CALLBACK_DATA Data)
{
    PUCHAR bytes = NULL;

    if (Data->Iopb->Parameters.Read.MdlAddress != NULL) {
        bytes = MmGetSystemAddressForMdlSafe(Data->Iopb->Parameters.Read.MdlAddress, NormalPagePriority | MdlMappingNoExecute);
    }
    if (bytes != NULL && Data->IoStatus.Information > 0) {
        InterlockedExchangeAdd((LONG *)&gSum, bytes[0]);
    }
}

static FLT_POSTOP_CALLBACK_STATUS SafePostRead(PFLT_CALLBACK_DATA Data, PCFLT_RELATED_OBJECTS FltObjects, PVOID CompletionContext, FLT_POST_OPERATION_FLAGS Flags)
{
    UNREFERENCED_PARAMETER(FltObjects);
    UNREFERENCED_PARAMETER(CompletionContext);
    UNREFERENCED_PARAMETER(Flags);
    if (NT_SUCCESS(FltLockUserBuffer(Data))) {
        Look(Data);
    }
    return FLT_POSTOP_FINISHED_PROCESSING;
}

static FLT_POSTOP_CALLBACK_STATUS PostRead(PFLT_CALLBACK_DATA Data, PCFLT_RELATED_OBJECTS FltObjects, PVOID CompletionContext, FLT_POST_OPERATION_FLAGS Flags)
{
    FLT_POSTOP_CALLBACK_STATUS status = FLT_POSTOP_FINISHED_PROCESSING;
    PSTREAM stream = CompletionContext;

    InterlockedIncrement((LONG *)&stream->Reads);
    KeSetEvent(&stream->Done, IO_NO_INCREMENT, FALSE);
    FltReleaseContext(stream);
    if (FlagOn(Flags, FLTFL_POST_OPERATION_DRAINING)) {
        return status;
    }
    if (Data->Iopb->Parameters.Read.MdlAddress != NULL) {
        Look(Data);
    } else if (!FltDoCompletionProcessingWhenSafe(Data, FltObjects, NULL, Flags, SafePostRead, &status)) {
        status = FLT_POSTOP_FINISHED_PROCESSING;
    }
    return status;
}

static VOID Work(PFLT_DEFERRED_IO_WORKITEM WorkItem, PFLT_CALLBACK_DATA Data, PVOID Context)
{
    PUCHAR bytes = MmGetSystemAddressForMdlSafe(Data->Iopb->Parameters.Write.MdlAddress, NormalPagePriority | MdlMappingNoExecute);

    UNREFERENCED_PARAMETER(Context);
    if (bytes != NULL) {
        InterlockedExchangeAdd((LONG *)&gSum, bytes[0]);
    }
    FltCompletePendedPreOperation(Data, FLT_PREOP_SUCCESS_NO_CALLBACK, NULL);
    FltFreeDeferredIoWorkItem(WorkItem);
}

static FLT_PREOP_CALLBACK_STATUS PreWrite(PFLT_CALLBACK_DATA Data, PCFLT_RELATED_OBJECTS FltObjects, PVOID *CompletionContext)
{
    PFLT_DEFERRED_IO_WORKITEM item;
    PUCHAR bytes = Data->Iopb->Parameters.Write.WriteBuffer;

    UNREFERENCED_PARAMETER(FltObjects);
    UNREFERENCED_PARAMETER(CompletionContext);
    if (Data->Iopb->Parameters.Write.Length == 0 || bytes == NULL) {
        return FLT_PREOP_SUCCESS_NO_CALLBACK;
    }
    __try {
        InterlockedExchangeAdd((LONG *)&gSum, bytes[0]);
    } __except (EXCEPTION_EXECUTE_HANDLER) {
        return FLT_PREOP_SUCCESS_NO_CALLBACK;
    }
    if (!NT_SUCCESS(FltLockUserBuffer(Data)) || Data->Iopb->Parameters.Write.MdlAddress == NULL) {
        return FLT_PREOP_SUCCESS_NO_CALLBACK;
    }
    item = FltAllocateDeferredIoWorkItem();
    if (item == NULL) {
        return FLT_PREOP_SUCCESS_NO_CALLBACK;
    }
    if (!NT_SUCCESS(FltQueueDeferredIoWorkItem(item, Data, Work, DelayedWorkQueue, NULL))) {
        FltFreeDeferredIoWorkItem(item);
        return FLT_PREOP_SUCCESS_NO_CALLBACK;
    }
    return FLT_PREOP_PENDING;
}

static NTSTATUS Unload(FLT_FILTER_UNLOAD_FLAGS Flags)
{
    UNREFERENCED_PARAMETER(Flags);
    FltUnregisterFilter(gFilter);
    ExFreePoolWithTag(gPaged, TOUCHES_TAG);
    ExFreePoolWithTag(gResident, TOUCHES_TAG);
    return STATUS_SUCCESS;
}

static CONST FLT_CONTEXT_REGISTRATION Contexts[] = {{FLT_STREAM_CONTEXT, 0, NULL, sizeof(STREAM), TOUCHES_TAG}, {FLT_CONTEXT_END}};
static CONST FLT_OPERATION_REGISTRATION Callbacks[] = {
    {IRP_MJ_CREATE, 0, NULL, PostCreate}, {IRP_MJ_FLUSH_BUFFERS, 0, PreFlush}, {IRP_MJ_READ, 0, PreRead, PostRead}, {IRP_MJ_WRITE, 0, PreWrite}, {IRP_MJ_OPERATION_END}};
static CONST FLT_REGISTRATION Registration = {sizeof(FLT_REGISTRATION), FLT_REGISTRATION_VERSION, 0, Contexts, Callbacks, Unload};

NTSTATUS DriverEntry(PDRIVER_OBJECT DriverObject, PUNICODE_STRING RegistryPath)
{
    NTSTATUS status = STATUS_INSUFFICIENT_RESOURCES;

    UNREFERENCED_PARAMETER(RegistryPath);
    KeInitializeSpinLock(&gLock);
    ExInitializeFastMutex(&gMutex);
    gPaged = ExAllocatePoolWithTag(PagedPool, 16, TOUCHES_TAG);
    gResident = ExAllocatePoolWithTag(NonPagedPoolNx, 16, TOUCHES_TAG);
    if (gPaged != NULL && gResident != NULL) {
        RtlZeroMemory(gPaged, 16);
        RtlZeroMemory(gResident, 16);
        status = FltRegisterFilter(DriverObject, &Registration, &gFilter);
    }
    if (NT_SUCCESS(status)) {
        status = FltStartFiltering(gFilter);
        if (!NT_SUCCESS(status)) {
            FltUnregisterFilter(gFilter);
        }
    }
    if (!NT_SUCCESS(status)) {
        if (gPaged != NULL) {
            ExFreePoolWithTag(gPaged, TOUCHES_TAG);
        }
        if (gResident != NULL) {
            ExFreePoolWithTag(gResident, TOUCHES_TAG);
        }
    }
    return status;
}
