/* A filter in transactions: it enlists in each that a file is opened in, with a context that counts what is written, and says each step. A file that is called veto has the transaction rolled back
 * before it is committed, and one that is called slow has the steps end by a work item. */
#include <fltKernel.h>

typedef struct _TRANSACTION_STATE {
    ULONG Files, Writes;
    BOOLEAN IsVetoed, IsSlow;
    PFLT_INSTANCE Instance;
    PKTRANSACTION Transaction;
    ULONG Step;
} TRANSACTION_STATE, *PTRANSACTION_STATE;

static PFLT_FILTER filter;

static VOID TransactsFree(PFLT_CONTEXT Context, FLT_CONTEXT_TYPE ContextType)
{
    PTRANSACTION_STATE state = Context;
    UNREFERENCED_PARAMETER(ContextType);
    DbgPrint("Transacts: state of %lu files and %lu writes goes\n", state->Files, state->Writes);
}

/* The state of a transaction, with a reference; a new one is enlisted. */
static NTSTATUS TransactsState(PCFLT_RELATED_OBJECTS FltObjects, PTRANSACTION_STATE *State)
{
    PTRANSACTION_STATE made;
    NTSTATUS status = FltGetTransactionContext(FltObjects->Instance, FltObjects->Transaction, (PFLT_CONTEXT *)State);
    if (status != STATUS_NOT_FOUND)
        return status;
    status = FltAllocateContext(filter, FLT_TRANSACTION_CONTEXT, sizeof *made, PagedPool, (PFLT_CONTEXT *)&made);
    if (!NT_SUCCESS(status))
        return status;
    RtlZeroMemory(made, sizeof *made);
    status = FltSetTransactionContext(FltObjects->Instance, FltObjects->Transaction, FLT_SET_CONTEXT_KEEP_IF_EXISTS, made, NULL);
    if (NT_SUCCESS(status))
        status = FltEnlistInTransaction(FltObjects->Instance, FltObjects->Transaction, made, FLT_MAX_TRANSACTION_NOTIFICATIONS);
    DbgPrint("Transacts: enlisted, 0x%08x\n", status);
    if (NT_SUCCESS(status))
        *State = made;
    else
        FltReleaseContext(made);
    return status;
}

static FLT_POSTOP_CALLBACK_STATUS PostCreate(PFLT_CALLBACK_DATA Data, PCFLT_RELATED_OBJECTS FltObjects, PVOID CompletionContext, FLT_POST_OPERATION_FLAGS Flags)
{
    static const UNICODE_STRING veto = RTL_CONSTANT_STRING(L"\\veto"), slow = RTL_CONSTANT_STRING(L"\\slow");
    PTRANSACTION_STATE state;
    PTXN_PARAMETER_BLOCK block = IoGetTransactionParameterBlock(FltObjects->FileObject);
    UNREFERENCED_PARAMETER(CompletionContext);
    if (FlagOn(Flags, FLTFL_POST_OPERATION_DRAINING) || !NT_SUCCESS(Data->IoStatus.Status) || FltObjects->Transaction == NULL) {
        return FLT_POSTOP_FINISHED_PROCESSING;
    }
    if (block == NULL || block->TransactionObject != FltObjects->Transaction) {
        DbgPrint("Transacts: another transaction\n");
    }
    if (NT_SUCCESS(TransactsState(FltObjects, &state))) {
        state->Files++;
        state->IsVetoed |= RtlEqualUnicodeString(&FltObjects->FileObject->FileName, &veto, TRUE);
        state->IsSlow |= RtlEqualUnicodeString(&FltObjects->FileObject->FileName, &slow, TRUE);
        FltReleaseContext(state);
    }
    return FLT_POSTOP_FINISHED_PROCESSING;
}

static FLT_PREOP_CALLBACK_STATUS PreWrite(PFLT_CALLBACK_DATA Data, PCFLT_RELATED_OBJECTS FltObjects, PVOID *CompletionContext)
{
    PTRANSACTION_STATE state;
    UNREFERENCED_PARAMETER(Data);
    UNREFERENCED_PARAMETER(CompletionContext);
    if (FltObjects->Transaction != NULL && NT_SUCCESS(FltGetTransactionContext(FltObjects->Instance, FltObjects->Transaction, (PFLT_CONTEXT *)&state))) {
        state->Writes++;
        FltReleaseContext(state);
    }
    return FLT_PREOP_SUCCESS_NO_CALLBACK;
}

static VOID Later(PFLT_GENERIC_WORKITEM Item, PVOID FltObject, PVOID Context)
{
    PTRANSACTION_STATE state = Context;
    UNREFERENCED_PARAMETER(FltObject);
    DbgPrint("Transacts: step %lx ends\n", state->Step);
    if (state->Step == TRANSACTION_NOTIFY_PREPARE) {
        FltPrepareComplete(state->Instance, state->Transaction, state);
    } else {
        FltCommitComplete(state->Instance, state->Transaction, state);
    }
    FltReleaseContext(state);
    FltFreeGenericWorkItem(Item);
}

static BOOLEAN IsPutOff(PCFLT_RELATED_OBJECTS FltObjects, PTRANSACTION_STATE State, ULONG Step)
{
    PFLT_GENERIC_WORKITEM item;
    if (!State->IsSlow || (Step != TRANSACTION_NOTIFY_PREPARE && Step != TRANSACTION_NOTIFY_COMMIT)) {
        return FALSE;
    }
    item = FltAllocateGenericWorkItem();
    if (item == NULL) {
        return FALSE;
    }
    State->Step = Step;
    State->Instance = FltObjects->Instance;
    State->Transaction = FltObjects->Transaction;
    FltReferenceContext(State);
    if (NT_SUCCESS(FltQueueGenericWorkItem(item, FltObjects->Instance, Later, DelayedWorkQueue, State))) {
        return TRUE;
    }
    FltReleaseContext(State);
    FltFreeGenericWorkItem(item);
    return FALSE;
}

static NTSTATUS Notify(PCFLT_RELATED_OBJECTS FltObjects, PFLT_CONTEXT TransactionContext, ULONG NotificationMask)
{
    PTRANSACTION_STATE state = TransactionContext;
    DbgPrint("Transacts: step %lx of %lu files and %lu writes\n", NotificationMask, state->Files, state->Writes);
    if (state->IsVetoed && NotificationMask == TRANSACTION_NOTIFY_PREPARE) {
        DbgPrint("Transacts: veto, 0x%08x\n", FltRollbackEnlistment(FltObjects->Instance, FltObjects->Transaction, state));
        return STATUS_SUCCESS;
    }
    return IsPutOff(FltObjects, state, NotificationMask) ? STATUS_PENDING : STATUS_SUCCESS;
}

static NTSTATUS Unload(FLT_FILTER_UNLOAD_FLAGS Flags)
{
    UNREFERENCED_PARAMETER(Flags);
    FltUnregisterFilter(filter);
    return STATUS_SUCCESS;
}

static const FLT_CONTEXT_REGISTRATION contexts[] = {{FLT_TRANSACTION_CONTEXT, 0, TransactsFree, sizeof(TRANSACTION_STATE), 'snrT'}, {FLT_CONTEXT_END}};
static const FLT_OPERATION_REGISTRATION operations[] = {{IRP_MJ_CREATE, 0, NULL, PostCreate, NULL}, {IRP_MJ_WRITE, 0, PreWrite, NULL, NULL}, {IRP_MJ_OPERATION_END, 0, NULL, NULL, NULL}};
static const FLT_REGISTRATION registration = {.Size = sizeof registration,
                                              .Version = FLT_REGISTRATION_VERSION,
                                              .ContextRegistration = contexts,
                                              .OperationRegistration = operations,
                                              .FilterUnloadCallback = Unload,
                                              .TransactionNotificationCallback = Notify};

NTSTATUS DriverEntry(PDRIVER_OBJECT DriverObject, PUNICODE_STRING RegistryPath)
{
    NTSTATUS status = FltRegisterFilter(DriverObject, &registration, &filter);
    UNREFERENCED_PARAMETER(RegistryPath);
    if (NT_SUCCESS(status) && !NT_SUCCESS(status = FltStartFiltering(filter))) {
        FltUnregisterFilter(filter);
    }
    return status;
}
