/* A read queues a work item of its instance, which waits for the end of the teardown: and the teardown doesn't end while a work item of the instance runs. */
#include "small.h"

static KEVENT gIsGone;

static VOID Wait(PFLT_GENERIC_WORKITEM FltWorkItem, PVOID FltObject, PVOID Context)
{
    UNREFERENCED_PARAMETER(FltObject);
    UNREFERENCED_PARAMETER(Context);
    FltFreeGenericWorkItem(FltWorkItem);
    KeWaitForSingleObject(&gIsGone, Executive, KernelMode, FALSE, NULL);
}

static FLT_PREOP_CALLBACK_STATUS PreRead(PFLT_CALLBACK_DATA Data, PCFLT_RELATED_OBJECTS FltObjects, PVOID *CompletionContext)
{
    PFLT_GENERIC_WORKITEM item = FltAllocateGenericWorkItem();

    UNREFERENCED_PARAMETER(Data);
    UNREFERENCED_PARAMETER(CompletionContext);
    if (item != NULL && !NT_SUCCESS(FltQueueGenericWorkItem(item, FltObjects->Instance, Wait, DelayedWorkQueue, NULL))) {
        FltFreeGenericWorkItem(item);
    }
    return FLT_PREOP_SUCCESS_NO_CALLBACK;
}

static VOID TeardownComplete(PCFLT_RELATED_OBJECTS FltObjects, FLT_INSTANCE_TEARDOWN_FLAGS Reason)
{
    UNREFERENCED_PARAMETER(FltObjects);
    UNREFERENCED_PARAMETER(Reason);
    KeSetEvent(&gIsGone, IO_NO_INCREMENT, FALSE);
}

static const FLT_OPERATION_REGISTRATION Operations[] = {{IRP_MJ_READ, 0, PreRead}, {IRP_MJ_OPERATION_END}};

NTSTATUS DriverEntry(PDRIVER_OBJECT DriverObject, PUNICODE_STRING RegistryPath)
{
    FLT_REGISTRATION registration = {
        .Size = sizeof(FLT_REGISTRATION),
        .Version = FLT_REGISTRATION_VERSION,
        .OperationRegistration = Operations,
        .FilterUnloadCallback = Unload,
        .InstanceQueryTeardownCallback = QueryTeardown,
        .InstanceTeardownCompleteCallback = TeardownComplete,
    };
    NTSTATUS status;

    UNREFERENCED_PARAMETER(RegistryPath);
    UNREFERENCED_PARAMETER(Register);
    KeInitializeEvent(&gIsGone, NotificationEvent, FALSE);
    status = FltRegisterFilter(DriverObject, &registration, &gFilter);
    return NT_SUCCESS(status) ? FltStartFiltering(gFilter) : status;
}
