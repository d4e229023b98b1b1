/* Looks for a word in each file that was written, as it is closed, and denies opens of those that have it; what a transaction writes is looked at in it, and counts once that is committed. */
#include "txstate.h"

typedef struct _FILE_STATE {
    LIST_ENTRY Entry; /* in the list of its transaction, which has a reference */
    BOOLEAN IsWritten, IsBad, IsBadInTransaction, IsInList;
} FILE_STATE, *PFILE_STATE;

static PFLT_FILTER filter;

static NTSTATUS FileOf(PCFLT_RELATED_OBJECTS FltObjects, PFILE_STATE *State)
{
    PFILE_STATE made, there = NULL;
    NTSTATUS status = FltGetStreamContext(FltObjects->Instance, FltObjects->FileObject, (PFLT_CONTEXT *)State);
    if (status != STATUS_NOT_FOUND)
        return status;
    status = FltAllocateContext(filter, FLT_STREAM_CONTEXT, sizeof *made, NonPagedPool, (PFLT_CONTEXT *)&made);
    if (!NT_SUCCESS(status))
        return status;
    RtlZeroMemory(made, sizeof *made);
    status = FltSetStreamContext(FltObjects->Instance, FltObjects->FileObject, FLT_SET_CONTEXT_KEEP_IF_EXISTS, made, (PFLT_CONTEXT *)&there);
    if (!NT_SUCCESS(status))
        FltReleaseContext(made);
    *State = NT_SUCCESS(status) ? made : there;
    return status == STATUS_FLT_CONTEXT_ALREADY_DEFINED ? STATUS_SUCCESS : status;
}

static FLT_POSTOP_CALLBACK_STATUS PostCreate(PFLT_CALLBACK_DATA Data, PCFLT_RELATED_OBJECTS FltObjects, PVOID CompletionContext, FLT_POST_OPERATION_FLAGS Flags)
{
    PFILE_STATE file;
    UNREFERENCED_PARAMETER(CompletionContext);
    if (Flags & FLTFL_POST_OPERATION_DRAINING || !NT_SUCCESS(Data->IoStatus.Status) || Data->IoStatus.Status == STATUS_REPARSE || !NT_SUCCESS(FileOf(FltObjects, &file)))
        return FLT_POSTOP_FINISHED_PROCESSING;
    if (FltObjects->Transaction ? file->IsBadInTransaction : file->IsBad) {
        DbgPrint("txscans: %wZ is denied\n", &FltObjects->FileObject->FileName);
        FltCancelFileOpen(FltObjects->Instance, FltObjects->FileObject);
        Data->IoStatus.Status = STATUS_VIRUS_INFECTED;
        Data->IoStatus.Information = 0;
    }
    FltReleaseContext(file);
    return FLT_POSTOP_FINISHED_PROCESSING;
}

static FLT_PREOP_CALLBACK_STATUS PreWrite(PFLT_CALLBACK_DATA Data, PCFLT_RELATED_OBJECTS FltObjects, PVOID *CompletionContext)
{
    PFILE_STATE file;
    *CompletionContext = NULL;
    if (!(Data->Iopb->IrpFlags & IRP_PAGING_IO) && NT_SUCCESS(FileOf(FltObjects, &file))) {
        file->IsWritten = TRUE;
        FltReleaseContext(file);
    }
    return FLT_PREOP_SUCCESS_NO_CALLBACK;
}

static BOOLEAN IsBad(PCFLT_RELATED_OBJECTS FltObjects)
{
    LARGE_INTEGER begin = {0};
    ULONG count = 0;
    BOOLEAN isBad = FALSE;
    PCHAR bytes = FltAllocatePoolAlignedWithTag(FltObjects->Instance, NonPagedPool, 512, 'nacS');
    if (!bytes)
        return FALSE;
    if (NT_SUCCESS(FltReadFile(FltObjects->Instance, FltObjects->FileObject, &begin, 512, bytes, FLTFL_IO_OPERATION_DO_NOT_UPDATE_BYTE_OFFSET, &count, NULL, NULL)))
        isBad = count >= 3 && RtlEqualMemory(bytes, "BAD", 3);
    FltFreePoolAlignedWithTag(FltObjects->Instance, bytes, 'nacS');
    return isBad;
}

static VOID KeepInTransaction(PCFLT_RELATED_OBJECTS FltObjects, PFILE_STATE File, BOOLEAN IsFoundBad)
{
    PTX_STATE state;
    if (!NT_SUCCESS(TxState(filter, FltObjects, TRANSACTION_NOTIFY_COMMIT_FINALIZE | TRANSACTION_NOTIFY_ROLLBACK, &state)))
        return;
    ExAcquireFastMutex(&state->Lock);
    File->IsBadInTransaction = IsFoundBad;
    if (!File->IsInList) {
        File->IsInList = TRUE;
        FltReferenceContext(File);
        InsertTailList(&state->List, &File->Entry);
    }
    ExReleaseFastMutex(&state->Lock);
    FltReleaseContext(state);
}

static FLT_PREOP_CALLBACK_STATUS PreCleanup(PFLT_CALLBACK_DATA Data, PCFLT_RELATED_OBJECTS FltObjects, PVOID *CompletionContext)
{
    PFILE_STATE file;
    UNREFERENCED_PARAMETER(Data);
    *CompletionContext = NULL;
    if (!NT_SUCCESS(FltGetStreamContext(FltObjects->Instance, FltObjects->FileObject, (PFLT_CONTEXT *)&file)))
        return FLT_PREOP_SUCCESS_NO_CALLBACK;
    if (file->IsWritten) {
        BOOLEAN isBad = IsBad(FltObjects);
        file->IsWritten = FALSE;
        DbgPrint("txscans: %wZ is %s\n", &FltObjects->FileObject->FileName, isBad ? "bad" : "good");
        if (FltObjects->Transaction)
            KeepInTransaction(FltObjects, file, isBad);
        else
            file->IsBad = isBad;
    }
    FltReleaseContext(file);
    return FLT_PREOP_SUCCESS_NO_CALLBACK;
}

static NTSTATUS Notified(PCFLT_RELATED_OBJECTS FltObjects, PFLT_CONTEXT TransactionContext, ULONG NotificationMask)
{
    PTX_STATE state = TransactionContext;
    UNREFERENCED_PARAMETER(FltObjects);
    ExAcquireFastMutex(&state->Lock);
    while (!IsListEmpty(&state->List)) {
        PFILE_STATE file = CONTAINING_RECORD(RemoveHeadList(&state->List), FILE_STATE, Entry);
        if (NotificationMask == TRANSACTION_NOTIFY_COMMIT_FINALIZE)
            file->IsBad = file->IsBadInTransaction;
        file->IsBadInTransaction = file->IsInList = FALSE;
        FltReleaseContext(file);
    }
    ExReleaseFastMutex(&state->Lock);
    return STATUS_SUCCESS;
}

static NTSTATUS Unload(FLT_FILTER_UNLOAD_FLAGS Flags)
{
    UNREFERENCED_PARAMETER(Flags);
    FltUnregisterFilter(filter);
    return STATUS_SUCCESS;
}

static const FLT_OPERATION_REGISTRATION callbacks[] = {{IRP_MJ_CREATE, 0, NULL, PostCreate, NULL}, {IRP_MJ_WRITE, 0, PreWrite, NULL, NULL}, {IRP_MJ_CLEANUP, 0, PreCleanup, NULL, NULL}, {IRP_MJ_OPERATION_END}};
static const FLT_CONTEXT_REGISTRATION contexts[] = {{FLT_TRANSACTION_CONTEXT, 0, NULL, sizeof(TX_STATE), 'xtnI'}, {FLT_STREAM_CONTEXT, 0, NULL, sizeof(FILE_STATE), 'eliF'}, {FLT_CONTEXT_END}};
static const FLT_REGISTRATION registration = {.Size = sizeof(FLT_REGISTRATION),
                                              .Version = FLT_REGISTRATION_VERSION,
                                              .ContextRegistration = contexts,
                                              .OperationRegistration = callbacks,
                                              .FilterUnloadCallback = Unload,
                                              .TransactionNotificationCallback = Notified};

NTSTATUS DriverEntry(PDRIVER_OBJECT DriverObject, PUNICODE_STRING RegistryPath)
{
    UNREFERENCED_PARAMETER(RegistryPath);
    return TxBegin(DriverObject, &registration, &filter);
}
