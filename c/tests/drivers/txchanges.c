/* Knows which files were changed: what a transaction changes counts once that is committed. */
#include "txstate.h"

typedef struct _FILE_STATE {
    LIST_ENTRY Entry; /* in the list of its transaction, which has a reference */
    PKTRANSACTION Transaction;
    BOOLEAN IsChanged, IsChangedInTransaction;
} FILE_STATE, *PFILE_STATE;

static PFLT_FILTER filter;

static NTSTATUS FileOf(PCFLT_RELATED_OBJECTS FltObjects, PFILE_STATE *State)
{
    PFILE_STATE made, there = NULL;
    NTSTATUS status = FltGetStreamContext(FltObjects->Instance, FltObjects->FileObject, (PFLT_CONTEXT *)State);
    if (status != STATUS_NOT_FOUND)
        return status;
    status = FltAllocateContext(filter, FLT_STREAM_CONTEXT, sizeof *made, NonPagedPool, (PFLT_CONTEXT *)&made);
    if (!NT_SUCCESS(status))
        return status;
    RtlZeroMemory(made, sizeof *made);
    status = FltSetStreamContext(FltObjects->Instance, FltObjects->FileObject, FLT_SET_CONTEXT_KEEP_IF_EXISTS, made, (PFLT_CONTEXT *)&there);
    if (!NT_SUCCESS(status))
        FltReleaseContext(made);
    *State = NT_SUCCESS(status) ? made : there;
    return status == STATUS_FLT_CONTEXT_ALREADY_DEFINED ? STATUS_SUCCESS : status;
}

static VOID NoteInTransaction(PCFLT_RELATED_OBJECTS FltObjects, PFILE_STATE File)
{
    PTX_STATE state;
    if (!NT_SUCCESS(TxState(filter, FltObjects, TRANSACTION_NOTIFY_COMMIT_FINALIZE | TRANSACTION_NOTIFY_ROLLBACK, &state)))
        return;
    ExAcquireFastMutex(&state->Lock);
    if (!File->Transaction) {
        ObReferenceObject(FltObjects->Transaction);
        FltReferenceContext(File);
        File->Transaction = FltObjects->Transaction;
        InsertTailList(&state->List, &File->Entry);
    }
    File->IsChangedInTransaction = TRUE;
    ExReleaseFastMutex(&state->Lock);
    FltReleaseContext(state);
}

static FLT_PREOP_CALLBACK_STATUS PreChange(PFLT_CALLBACK_DATA Data, PCFLT_RELATED_OBJECTS FltObjects, PVOID *CompletionContext)
{
    PFILE_STATE file;
    *CompletionContext = NULL;
    if (Data->Iopb->IrpFlags & IRP_PAGING_IO || !NT_SUCCESS(FileOf(FltObjects, &file)))
        return FLT_PREOP_SUCCESS_NO_CALLBACK;
    if (FltObjects->Transaction)
        NoteInTransaction(FltObjects, file);
    else
        file->IsChanged = TRUE;
    FltReleaseContext(file);
    return FLT_PREOP_SUCCESS_NO_CALLBACK;
}

static FLT_PREOP_CALLBACK_STATUS PreCleanup(PFLT_CALLBACK_DATA Data, PCFLT_RELATED_OBJECTS FltObjects, PVOID *CompletionContext)
{
    PFILE_STATE file;
    UNREFERENCED_PARAMETER(Data);
    *CompletionContext = NULL;
    if (NT_SUCCESS(FltGetStreamContext(FltObjects->Instance, FltObjects->FileObject, (PFLT_CONTEXT *)&file))) {
        DbgPrint("txchanges: %wZ: %s%s\n", &FltObjects->FileObject->FileName, file->IsChanged ? "changed" : "as it was", file->IsChangedInTransaction ? ", and changed in a transaction" : "");
        FltReleaseContext(file);
    }
    return FLT_PREOP_SUCCESS_NO_CALLBACK;
}

static NTSTATUS Notified(PCFLT_RELATED_OBJECTS FltObjects, PFLT_CONTEXT TransactionContext, ULONG NotificationMask)
{
    PTX_STATE state = TransactionContext;
    UNREFERENCED_PARAMETER(FltObjects);
    ExAcquireFastMutex(&state->Lock);
    while (!IsListEmpty(&state->List)) {
        PFILE_STATE file = CONTAINING_RECORD(RemoveHeadList(&state->List), FILE_STATE, Entry);
        if (NotificationMask == TRANSACTION_NOTIFY_COMMIT_FINALIZE)
            file->IsChanged |= file->IsChangedInTransaction;
        file->IsChangedInTransaction = FALSE;
        ObDereferenceObject(file->Transaction);
        file->Transaction = NULL;
        FltReleaseContext(file);
    }
    ExReleaseFastMutex(&state->Lock);
    DbgPrint("txchanges: %s\n", NotificationMask == TRANSACTION_NOTIFY_COMMIT_FINALIZE ? "committed" : "rolled back");
    return STATUS_SUCCESS;
}

static NTSTATUS Unload(FLT_FILTER_UNLOAD_FLAGS Flags)
{
    UNREFERENCED_PARAMETER(Flags);
    FltUnregisterFilter(filter);
    return STATUS_SUCCESS;
}

static const FLT_OPERATION_REGISTRATION callbacks[] = {{IRP_MJ_WRITE, 0, PreChange, NULL, NULL}, {IRP_MJ_SET_INFORMATION, 0, PreChange, NULL, NULL}, {IRP_MJ_CLEANUP, 0, PreCleanup, NULL, NULL}, {IRP_MJ_OPERATION_END}};
static const FLT_CONTEXT_REGISTRATION contexts[] = {{FLT_TRANSACTION_CONTEXT, 0, NULL, sizeof(TX_STATE), 'xtnI'}, {FLT_STREAM_CONTEXT, 0, NULL, sizeof(FILE_STATE), 'eliF'}, {FLT_CONTEXT_END}};
static const FLT_REGISTRATION registration = {.Size = sizeof(FLT_REGISTRATION),
                                              .Version = FLT_REGISTRATION_VERSION,
                                              .ContextRegistration = contexts,
                                              .OperationRegistration = callbacks,
                                              .FilterUnloadCallback = Unload,
                                              .TransactionNotificationCallback = Notified};

NTSTATUS DriverEntry(PDRIVER_OBJECT DriverObject, PUNICODE_STRING RegistryPath)
{
    UNREFERENCED_PARAMETER(RegistryPath);
    return TxBegin(DriverObject, &registration, &filter);
}
