/* Memory that may not be touched there: what can be paged out at DISPATCH_LEVEL, a caller's own buffer there and in another process, and what is the filter manager's. */
#include <fltKernel.h>

#define ACCESS_TAG 'sccA'

typedef struct _STREAM {
    ULONG Reads;
} STREAM, *PSTREAM;

static PFLT_FILTER gFilter;
static KSPIN_LOCK gLock;
static LIST_ENTRY gHead;
static PUCHAR gPaged;
static PLIST_ENTRY gEntry;
static ULONG gStep, gSum;

static FLT_POSTOP_CALLBACK_STATUS PostCreate(PFLT_CALLBACK_DATA Data, PCFLT_RELATED_OBJECTS FltObjects, PVOID CompletionContext, FLT_POST_OPERATION_FLAGS Flags)
{
    PFLT_FILE_NAME_INFORMATION name;
    PSTREAM stream;

    UNREFERENCED_PARAMETER(CompletionContext);
    UNREFERENCED_PARAMETER(Flags);
    if (NT_SUCCESS(FltGetFileNameInformation(Data, FLT_FILE_NAME_NORMALIZED | FLT_FILE_NAME_QUERY_DEFAULT, &name))) {
        RtlUpcaseUnicodeString(&name->Name, &name->Name, FALSE);
        FltReleaseFileNameInformation(name);
    }
    if (NT_SUCCESS(FltAllocateContext(gFilter, FLT_STREAM_CONTEXT, sizeof(STREAM), PagedPool, (PFLT_CONTEXT *)&stream))) {
        stream->Reads = 0;
        FltSetStreamContext(FltObjects->Instance, FltObjects->FileObject, FLT_SET_CONTEXT_KEEP_IF_EXISTS, stream, NULL);
        FltReleaseContext(stream);
    }
    return FLT_POSTOP_FINISHED_PROCESSING;
}

/* Each flush takes the next step. */
static FLT_PREOP_CALLBACK_STATUS PreFlush(PFLT_CALLBACK_DATA Data, PCFLT_RELATED_OBJECTS FltObjects, PVOID *CompletionContext)
{
    KIRQL irql;
    UCHAR copy[16];
    PFLT_FILE_NAME_INFORMATION name;

    UNREFERENCED_PARAMETER(FltObjects);
    UNREFERENCED_PARAMETER(CompletionContext);
    switch (gStep++) {
    case 0:
        KeAcquireSpinLock(&gLock, &irql);
        gPaged[0] = 1;
        KeReleaseSpinLock(&gLock, irql);
        break;
    case 1:
        KeRaiseIrql(DISPATCH_LEVEL, &irql);
        RtlCopyMemory(copy, gPaged, sizeof(copy));
        KeLowerIrql(irql);
        gSum += copy[0];
        break;
    case 2:
        KeAcquireSpinLock(&gLock, &irql);
        InsertTailList(&gHead, gEntry);
        KeReleaseSpinLock(&gLock, irql);
        break;
    case 3:
        if (NT_SUCCESS(FltGetFileNameInformation(Data, FLT_FILE_NAME_NORMALIZED | FLT_FILE_NAME_QUERY_DEFAULT, &name))) {
            name->Name.Buffer[0] = L'/';
            FltReleaseFileNameInformation(name);
        }
        break;
    }
    return FLT_PREOP_SUCCESS_NO_CALLBACK;
}

static FLT_PREOP_CALLBACK_STATUS PreRead(PFLT_CALLBACK_DATA Data, PCFLT_RELATED_OBJECTS FltObjects, PVOID *CompletionContext)
{
    UNREFERENCED_PARAMETER(Data);
    if (!NT_SUCCESS(FltGetStreamContext(FltObjects->Instance, FltObjects->FileObject, CompletionContext))) {
        return FLT_PREOP_SUCCESS_NO_CALLBACK;
    }
    return FLT_PREOP_SUCCESS_WITH_CALLBACK;
}

/* At DISPATCH_LEVEL. */
static FLT_POSTOP_CALLBACK_STATUS PostRead(PFLT_CALLBACK_DATA Data, PCFLT_RELATED_OBJECTS FltObjects, PVOID CompletionContext, FLT_POST_OPERATION_FLAGS Flags)
{
    PSTREAM stream = CompletionContext;
    PUCHAR bytes = Data->Iopb->Parameters.Read.ReadBuffer;

    UNREFERENCED_PARAMETER(FltObjects);
    UNREFERENCED_PARAMETER(Flags);
    stream->Reads = 1;
    FltReleaseContext(stream);
    if (Data->IoStatus.Information > 0) {
        __try { gSum += bytes[0]; } __except (EXCEPTION_EXECUTE_HANDLER) { }
    }
    return FLT_POSTOP_FINISHED_PROCESSING;
}

static VOID Work(PFLT_DEFERRED_IO_WORKITEM WorkItem, PFLT_CALLBACK_DATA Data, PVOID Context)
{
    PUCHAR bytes = Data->Iopb->Parameters.Write.WriteBuffer;

    UNREFERENCED_PARAMETER(Context);
    __try { gSum += bytes[0]; } __except (EXCEPTION_EXECUTE_HANDLER) { }
    FltCompletePendedPreOperation(Data, FLT_PREOP_SUCCESS_NO_CALLBACK, NULL);
    FltFreeDeferredIoWorkItem(WorkItem);
}

static FLT_PREOP_CALLBACK_STATUS PreWrite(PFLT_CALLBACK_DATA Data, PCFLT_RELATED_OBJECTS FltObjects, PVOID *CompletionContext)
{
    PFLT_DEFERRED_IO_WORKITEM item = FltAllocateDeferredIoWorkItem();

    UNREFERENCED_PARAMETER(FltObjects);
    UNREFERENCED_PARAMETER(CompletionContext);
    if (item == NULL) {
        return FLT_PREOP_SUCCESS_NO_CALLBACK;
    }
    if (!NT_SUCCESS(FltQueueDeferredIoWorkItem(item, Data, Work, DelayedWorkQueue, NULL))) {
        FltFreeDeferredIoWorkItem(item);
        return FLT_PREOP_SUCCESS_NO_CALLBACK;
    }
    return FLT_PREOP_PENDING;
}

static NTSTATUS Unload(FLT_FILTER_UNLOAD_FLAGS Flags)
{
    UNREFERENCED_PARAMETER(Flags);
    FltUnregisterFilter(gFilter);
    ExFreePoolWithTag(gPaged, ACCESS_TAG);
    ExFreePoolWithTag(gEntry, ACCESS_TAG);
    return STATUS_SUCCESS;
}

static CONST FLT_CONTEXT_REGISTRATION Contexts[] = {{FLT_STREAM_CONTEXT, 0, NULL, sizeof(STREAM), ACCESS_TAG}, {FLT_CONTEXT_END}};
static CONST FLT_OPERATION_REGISTRATION Callbacks[] = {
    {IRP_MJ_CREATE, 0, NULL, PostCreate}, {IRP_MJ_FLUSH_BUFFERS, 0, PreFlush}, {IRP_MJ_READ, 0, PreRead, PostRead}, {IRP_MJ_WRITE, 0, PreWrite}, {IRP_MJ_OPERATION_END}};
static CONST FLT_REGISTRATION Registration = {sizeof(FLT_REGISTRATION), FLT_REGISTRATION_VERSION, 0, Contexts, Callbacks, Unload};

NTSTATUS DriverEntry(PDRIVER_OBJECT DriverObject, PUNICODE_STRING RegistryPath)
{
    NTSTATUS status;

    UNREFERENCED_PARAMETER(RegistryPath);
    KeInitializeSpinLock(&gLock);
    InitializeListHead(&gHead);
    gPaged = ExAllocatePoolWithTag(PagedPool, 64, ACCESS_TAG);
    gEntry = ExAllocatePoolWithTag(PagedPool, sizeof(LIST_ENTRY), ACCESS_TAG);
    if (gPaged == NULL || gEntry == NULL) {
        return STATUS_INSUFFICIENT_RESOURCES;
    }
    RtlZeroMemory(gPaged, 64);
    status = FltRegisterFilter(DriverObject, &Registration, &gFilter);
    return NT_SUCCESS(status) ? FltStartFiltering(gFilter) : status;
}
