/* A work item reads the bytes of another process: it attaches to that process, copies them in a try block, and detaches before it lets the write go on. */
#include "../misuse/schedules/small.h"

#define ATTACHED_TAG 'cttA'

typedef struct {
    PFLT_CALLBACK_DATA Data;
    LONG Sum;
} WORK, *PWORK;

static LONG gSum;

static VOID Look(PFLT_GENERIC_WORKITEM Item, PVOID FltObject, PVOID Context)
{
    PWORK work = Context;
    PFLT_CALLBACK_DATA data = work->Data;
    PFLT_IO_PARAMETER_BLOCK iopb = data->Iopb;
    KAPC_STATE state;
    ULONG at;

    UNREFERENCED_PARAMETER(FltObject);
    KeStackAttachProcess((PKPROCESS)FltGetRequestorProcess(data), &state);
    NT_ASSERT(PsGetCurrentProcess() == FltGetRequestorProcess(data));
    __try {
        for (at = 0; at < iopb->Parameters.Write.Length; at++) {
            work->Sum += ((PUCHAR)iopb->Parameters.Write.WriteBuffer)[at];
        }
    } __except (EXCEPTION_EXECUTE_HANDLER) {
        work->Sum = -1;
    }
    KeUnstackDetachProcess(&state);
    NT_ASSERT(PsGetCurrentProcessId() == (HANDLE)4);
    InterlockedExchange(&gSum, work->Sum);
    ExFreePoolWithTag(work, ATTACHED_TAG);
    FltFreeGenericWorkItem(Item);
    FltCompletePendedPreOperation(data, FLT_PREOP_SUCCESS_NO_CALLBACK, NULL);
}

static FLT_PREOP_CALLBACK_STATUS PreWrite(PFLT_CALLBACK_DATA Data, PCFLT_RELATED_OBJECTS FltObjects, PVOID *CompletionContext)
{
    PFLT_GENERIC_WORKITEM item;
    PWORK work;

    UNREFERENCED_PARAMETER(CompletionContext);
    if (!FLT_IS_IRP_OPERATION(Data)) {
        return FLT_PREOP_DISALLOW_FASTIO;
    }
    work = ExAllocatePoolZero(NonPagedPoolNx, sizeof(WORK), ATTACHED_TAG);
    item = work != NULL ? FltAllocateGenericWorkItem() : NULL;
    if (item == NULL) {
        if (work != NULL) {
            ExFreePoolWithTag(work, ATTACHED_TAG);
        }
        return FLT_PREOP_SUCCESS_NO_CALLBACK;
    }
    work->Data = Data;
    if (!NT_SUCCESS(FltQueueGenericWorkItem(item, FltObjects->Instance, Look, DelayedWorkQueue, work))) {
        FltFreeGenericWorkItem(item);
        ExFreePoolWithTag(work, ATTACHED_TAG);
        return FLT_PREOP_SUCCESS_NO_CALLBACK;
    }
    return FLT_PREOP_PENDING;
}

static const FLT_OPERATION_REGISTRATION Operations[] = {{IRP_MJ_WRITE, FLTFL_OPERATION_REGISTRATION_SKIP_PAGING_IO, PreWrite}, {IRP_MJ_OPERATION_END}};

NTSTATUS DriverEntry(PDRIVER_OBJECT DriverObject, PUNICODE_STRING RegistryPath)
{
    UNREFERENCED_PARAMETER(RegistryPath);
    return Register(DriverObject, Operations, NULL, NULL);
}
