/* Says which files are deleted: by the status of their handle's cleanup, or, of what a transaction deletes, as that is committed. */
#include "txstate.h"

typedef struct _DELETED {
    LIST_ENTRY Entry;
    UNICODE_STRING Name;
} DELETED, *PDELETED;

static PFLT_FILTER filter;

static VOID Say(PTX_STATE State, const char *What)
{
    while (!IsListEmpty(&State->List)) {
        PDELETED one = CONTAINING_RECORD(RemoveHeadList(&State->List), DELETED, Entry);
        if (What)
            DbgPrint("txdeletes: %wZ %s\n", &one->Name, What);
        ExFreePoolWithTag(one, 'tleD');
    }
}

static VOID Free(PFLT_CONTEXT Context, FLT_CONTEXT_TYPE ContextType)
{
    UNREFERENCED_PARAMETER(ContextType);
    Say(Context, NULL);
}

static VOID Note(PCFLT_RELATED_OBJECTS FltObjects, PUNICODE_STRING Name)
{
    PTX_STATE state;
    PDELETED one;
    if (!FltObjects->Transaction) {
        DbgPrint("txdeletes: %wZ is deleted\n", Name);
        return;
    }
    if (!NT_SUCCESS(TxState(filter, FltObjects, TRANSACTION_NOTIFY_COMMIT_FINALIZE | TRANSACTION_NOTIFY_ROLLBACK, &state)))
        return;
    one = ExAllocatePoolWithTag(NonPagedPool, sizeof *one + Name->Length, 'tleD');
    if (one) {
        one->Name.Buffer = (PWCH)(one + 1);
        one->Name.Length = one->Name.MaximumLength = Name->Length;
        RtlCopyMemory(one->Name.Buffer, Name->Buffer, Name->Length);
        ExAcquireFastMutex(&state->Lock);
        InsertTailList(&state->List, &one->Entry);
        ExReleaseFastMutex(&state->Lock);
    }
    FltReleaseContext(state);
}

static FLT_PREOP_CALLBACK_STATUS PreCleanup(PFLT_CALLBACK_DATA Data, PCFLT_RELATED_OBJECTS FltObjects, PVOID *CompletionContext)
{
    PFLT_FILE_NAME_INFORMATION name;
    UNREFERENCED_PARAMETER(FltObjects);
    if (!NT_SUCCESS(FltGetFileNameInformation(Data, FLT_FILE_NAME_OPENED | FLT_FILE_NAME_QUERY_DEFAULT, &name)))
        return FLT_PREOP_SUCCESS_NO_CALLBACK;
    *CompletionContext = name;
    return FLT_PREOP_SYNCHRONIZE;
}

static FLT_POSTOP_CALLBACK_STATUS PostCleanup(PFLT_CALLBACK_DATA Data, PCFLT_RELATED_OBJECTS FltObjects, PVOID CompletionContext, FLT_POST_OPERATION_FLAGS Flags)
{
    FILE_STANDARD_INFORMATION standard;
    PFLT_FILE_NAME_INFORMATION name = CompletionContext;
    UNREFERENCED_PARAMETER(Data);
    if (!(Flags & FLTFL_POST_OPERATION_DRAINING) &&
        FltQueryInformationFile(FltObjects->Instance, FltObjects->FileObject, &standard, sizeof standard, FileStandardInformation, NULL) == STATUS_FILE_DELETED)
        Note(FltObjects, &name->Name);
    FltReleaseFileNameInformation(name);
    return FLT_POSTOP_FINISHED_PROCESSING;
}

static NTSTATUS Notified(PCFLT_RELATED_OBJECTS FltObjects, PFLT_CONTEXT TransactionContext, ULONG NotificationMask)
{
    UNREFERENCED_PARAMETER(FltObjects);
    Say(TransactionContext, NotificationMask == TRANSACTION_NOTIFY_COMMIT_FINALIZE ? "is deleted, as its transaction is committed" : "stays: its transaction is rolled back");
    return STATUS_SUCCESS;
}

static NTSTATUS Unload(FLT_FILTER_UNLOAD_FLAGS Flags)
{
    UNREFERENCED_PARAMETER(Flags);
    FltUnregisterFilter(filter);
    return STATUS_SUCCESS;
}

static const FLT_OPERATION_REGISTRATION callbacks[] = {{IRP_MJ_CLEANUP, 0, PreCleanup, PostCleanup, NULL}, {IRP_MJ_OPERATION_END}};
static const FLT_CONTEXT_REGISTRATION contexts[] = {{FLT_TRANSACTION_CONTEXT, 0, Free, sizeof(TX_STATE), 'xtnI'}, {FLT_CONTEXT_END}};
static const FLT_REGISTRATION registration = {.Size = sizeof(FLT_REGISTRATION),
                                              .Version = FLT_REGISTRATION_VERSION,
                                              .ContextRegistration = contexts,
                                              .OperationRegistration = callbacks,
                                              .FilterUnloadCallback = Unload,
                                              .TransactionNotificationCallback = Notified};

NTSTATUS DriverEntry(PDRIVER_OBJECT DriverObject, PUNICODE_STRING RegistryPath)
{
    UNREFERENCED_PARAMETER(RegistryPath);
    return TxBegin(DriverObject, &registration, &filter);
}
