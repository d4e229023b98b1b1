/* What the tx drivers do alike: the state of a transaction, with a reference, which is enlisted as it is made. */
#include <fltKernel.h>

typedef struct _TX_STATE {
    LIST_ENTRY List;
    FAST_MUTEX Lock;
    ULONG Count;
} TX_STATE, *PTX_STATE;

static NTSTATUS TxState(PFLT_FILTER Filter, PCFLT_RELATED_OBJECTS FltObjects, ULONG Notifications, PTX_STATE *State)
{
    PTX_STATE made, there = NULL;
    NTSTATUS status = FltGetTransactionContext(FltObjects->Instance, FltObjects->Transaction, (PFLT_CONTEXT *)State);
    if (status != STATUS_NOT_FOUND)
        return status;
    status = FltAllocateContext(Filter, FLT_TRANSACTION_CONTEXT, sizeof *made, NonPagedPool, (PFLT_CONTEXT *)&made);
    if (!NT_SUCCESS(status))
        return status;
    InitializeListHead(&made->List);
    ExInitializeFastMutex(&made->Lock);
    made->Count = 0;
    status = FltSetTransactionContext(FltObjects->Instance, FltObjects->Transaction, FLT_SET_CONTEXT_KEEP_IF_EXISTS, made, (PFLT_CONTEXT *)&there);
    if (status == STATUS_FLT_CONTEXT_ALREADY_DEFINED) {
        FltReleaseContext(made);
        *State = there;
        return STATUS_SUCCESS;
    }
    if (NT_SUCCESS(status))
        status = FltEnlistInTransaction(FltObjects->Instance, FltObjects->Transaction, made, Notifications);
    if (!NT_SUCCESS(status)) {
        FltDeleteTransactionContext(FltObjects->Instance, FltObjects->Transaction, NULL);
        FltReleaseContext(made);
        return status;
    }
    *State = made;
    return STATUS_SUCCESS;
}

static NTSTATUS TxBegin(PDRIVER_OBJECT DriverObject, const FLT_REGISTRATION *Registration, PFLT_FILTER *Filter)
{
    NTSTATUS status = FltRegisterFilter(DriverObject, Registration, Filter);
    if (!NT_SUCCESS(status))
        return status;
    status = FltStartFiltering(*Filter);
    if (!NT_SUCCESS(status))
        FltUnregisterFilter(*Filter);
    return status;
}
