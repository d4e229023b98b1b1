/* Much of everything: a record of each read, a context of each stream, and at a flush more locks at once than any table has. */
#include <fltKernel.h>

#define MANY_TAG 'ynaM'
#define LOCKS 1000

typedef struct {
    LIST_ENTRY Link;
    ULONG Length;
} READ_RECORD, *PREAD_RECORD;

static PFLT_FILTER gFilter;
static LIST_ENTRY gRecords;
static FAST_MUTEX gLocks[LOCKS];

static FLT_PREOP_CALLBACK_STATUS PreRead(_Inout_ PFLT_CALLBACK_DATA Data, _In_ PCFLT_RELATED_OBJECTS FltObjects, _Flt_CompletionContext_Outptr_ PVOID *CompletionContext)
{
    PREAD_RECORD record = ExAllocatePoolWithTag(NonPagedPool, sizeof(READ_RECORD), MANY_TAG);

    UNREFERENCED_PARAMETER(FltObjects);
    UNREFERENCED_PARAMETER(CompletionContext);
    if (record != NULL) {
        record->Length = Data->Iopb->Parameters.Read.Length;
        InsertTailList(&gRecords, &record->Link);
    }
    return FLT_PREOP_SUCCESS_NO_CALLBACK;
}

static FLT_PREOP_CALLBACK_STATUS PreFlush(_Inout_ PFLT_CALLBACK_DATA Data, _In_ PCFLT_RELATED_OBJECTS FltObjects, _Flt_CompletionContext_Outptr_ PVOID *CompletionContext)
{
    ULONG i;

    UNREFERENCED_PARAMETER(Data);
    UNREFERENCED_PARAMETER(FltObjects);
    UNREFERENCED_PARAMETER(CompletionContext);
    KeEnterCriticalRegion();
    for (i = 0; i < LOCKS; i++) {
        ExAcquireFastMutexUnsafe(&gLocks[i]);
    }
    for (i = 0; i < LOCKS; i++) {
        ExReleaseFastMutexUnsafe(&gLocks[i]);
    }
    KeLeaveCriticalRegion();
    return FLT_PREOP_SUCCESS_NO_CALLBACK;
}

static FLT_POSTOP_CALLBACK_STATUS PostCreate(_Inout_ PFLT_CALLBACK_DATA Data, _In_ PCFLT_RELATED_OBJECTS FltObjects, _In_opt_ PVOID CompletionContext, _In_ FLT_POST_OPERATION_FLAGS Flags)
{
    PFLT_CONTEXT context;

    UNREFERENCED_PARAMETER(CompletionContext);
    if (FlagOn(Flags, FLTFL_POST_OPERATION_DRAINING) || !NT_SUCCESS(Data->IoStatus.Status)) {
        return FLT_POSTOP_FINISHED_PROCESSING;
    }
    if (NT_SUCCESS(FltAllocateContext(gFilter, FLT_STREAM_CONTEXT, 16, NonPagedPool, &context))) {
        FltSetStreamContext(FltObjects->Instance, FltObjects->FileObject, FLT_SET_CONTEXT_KEEP_IF_EXISTS, context, NULL);
        FltReleaseContext(context);
    }
    return FLT_POSTOP_FINISHED_PROCESSING;
}

static NTSTATUS Unload(_In_ FLT_FILTER_UNLOAD_FLAGS Flags)
{
    UNREFERENCED_PARAMETER(Flags);
    FltUnregisterFilter(gFilter);
    while (!IsListEmpty(&gRecords)) {
        ExFreePoolWithTag(CONTAINING_RECORD(RemoveHeadList(&gRecords), READ_RECORD, Link), MANY_TAG);
    }
    return STATUS_SUCCESS;
}

static const FLT_CONTEXT_REGISTRATION Contexts[] = {{FLT_STREAM_CONTEXT, 0, NULL, 16, MANY_TAG}, {FLT_CONTEXT_END}};
static const FLT_OPERATION_REGISTRATION Operations[] = {{IRP_MJ_CREATE, 0, NULL, PostCreate}, {IRP_MJ_READ, 0, PreRead}, {IRP_MJ_FLUSH_BUFFERS, 0, PreFlush}, {IRP_MJ_OPERATION_END}};

NTSTATUS DriverEntry(_In_ PDRIVER_OBJECT DriverObject, _In_ PUNICODE_STRING RegistryPath)
{
    FLT_REGISTRATION registration = {.Size = sizeof(FLT_REGISTRATION), .Version = FLT_REGISTRATION_VERSION, .ContextRegistration = Contexts, .OperationRegistration = Operations, .FilterUnloadCallback = Unload};
    NTSTATUS status;
    ULONG i;

    UNREFERENCED_PARAMETER(RegistryPath);
    InitializeListHead(&gRecords);
    for (i = 0; i < LOCKS; i++) {
        ExInitializeFastMutex(&gLocks[i]);
    }
    status = FltRegisterFilter(DriverObject, &registration, &gFilter);
    return NT_SUCCESS(status) ? FltStartFiltering(gFilter) : status;
}
