/* Records operations and each step of their transactions, as a monitor does. */
#include "txstate.h"

static PFLT_FILTER filter;

static FLT_PREOP_CALLBACK_STATUS PreAny(PFLT_CALLBACK_DATA Data, PCFLT_RELATED_OBJECTS FltObjects, PVOID *CompletionContext)
{
    UNREFERENCED_PARAMETER(FltObjects);
    *CompletionContext = NULL;
    return Data->Iopb->MajorFunction == IRP_MJ_CLOSE ? FLT_PREOP_SUCCESS_NO_CALLBACK : FLT_PREOP_SUCCESS_WITH_CALLBACK;
}

static FLT_POSTOP_CALLBACK_STATUS PostAny(PFLT_CALLBACK_DATA Data, PCFLT_RELATED_OBJECTS FltObjects, PVOID CompletionContext, FLT_POST_OPERATION_FLAGS Flags)
{
    PTX_STATE state;
    UNREFERENCED_PARAMETER(CompletionContext);
    if (Flags & FLTFL_POST_OPERATION_DRAINING)
        return FLT_POSTOP_FINISHED_PROCESSING;
    DbgPrint("txspies: major %u, 0x%08x%s\n", Data->Iopb->MajorFunction, Data->IoStatus.Status, FltObjects->Transaction ? ", in a transaction" : "");
    if (!FltObjects->Transaction || Data->Iopb->MajorFunction != IRP_MJ_CREATE || !NT_SUCCESS(Data->IoStatus.Status))
        return FLT_POSTOP_FINISHED_PROCESSING;
    if (NT_SUCCESS(TxState(filter, FltObjects, FLT_MAX_TRANSACTION_NOTIFICATIONS, &state))) {
        InterlockedIncrement((PLONG)&state->Count);
        FltReleaseContext(state);
    }
    return FLT_POSTOP_FINISHED_PROCESSING;
}

static NTSTATUS Notified(PCFLT_RELATED_OBJECTS FltObjects, PFLT_CONTEXT TransactionContext, ULONG NotificationMask)
{
    UNREFERENCED_PARAMETER(FltObjects);
    DbgPrint("txspies: step 0x%lx of a transaction with %lu creates\n", NotificationMask, ((PTX_STATE)TransactionContext)->Count);
    return STATUS_SUCCESS;
}

static NTSTATUS Unload(FLT_FILTER_UNLOAD_FLAGS Flags)
{
    UNREFERENCED_PARAMETER(Flags);
    FltUnregisterFilter(filter);
    return STATUS_SUCCESS;
}

static const FLT_OPERATION_REGISTRATION callbacks[] = {{IRP_MJ_CREATE, 0, PreAny, PostAny, NULL}, {IRP_MJ_WRITE, 0, PreAny, PostAny, NULL}, {IRP_MJ_CLEANUP, 0, PreAny, PostAny, NULL}, {IRP_MJ_CLOSE, 0, PreAny, NULL, NULL}, {IRP_MJ_OPERATION_END}};
static const FLT_CONTEXT_REGISTRATION contexts[] = {{FLT_TRANSACTION_CONTEXT, 0, NULL, sizeof(TX_STATE), 'ypSt'}, {FLT_CONTEXT_END}};
static const FLT_REGISTRATION registration = {.Size = sizeof(FLT_REGISTRATION),
                                              .Version = FLT_REGISTRATION_VERSION,
                                              .ContextRegistration = contexts,
                                              .OperationRegistration = callbacks,
                                              .FilterUnloadCallback = Unload,
                                              .TransactionNotificationCallback = Notified};

NTSTATUS DriverEntry(PDRIVER_OBJECT DriverObject, PUNICODE_STRING RegistryPath)
{
    UNREFERENCED_PARAMETER(RegistryPath);
    return TxBegin(DriverObject, &registration, &filter);
}
