/* A read is pended, and a thread of the driver's own answers it ten milliseconds later, wherever the instance's teardown is by then: the teardown waits for it. */
#include <fltKernel.h>

static PFLT_FILTER gFilter;
static PFLT_CALLBACK_DATA gPended;
static KEVENT gWake;
static BOOLEAN gIsOver;
static PVOID gThread;

static VOID Expire(_In_ PVOID StartContext)
{
    LARGE_INTEGER time = {.QuadPart = -100000};
    PFLT_CALLBACK_DATA data;

    UNREFERENCED_PARAMETER(StartContext);
    for (;;) {
        KeWaitForSingleObject(&gWake, Executive, KernelMode, FALSE, NULL);
        if (gIsOver) {
            PsTerminateSystemThread(STATUS_SUCCESS);
        }
        KeDelayExecutionThread(KernelMode, FALSE, &time);
        data = InterlockedExchangePointer((PVOID *)&gPended, NULL);
        if (data != NULL) {
            data->IoStatus.Status = STATUS_ACCESS_DENIED;
            data->IoStatus.Information = 0;
            FltCompletePendedPreOperation(data, FLT_PREOP_COMPLETE, NULL);
        }
    }
}

/* Only an IRP may be pended, and no paging I/O, nor what the file system itself waits for. */
static BOOLEAN MayBePended(_In_ PFLT_CALLBACK_DATA Data)
{
    return FLT_IS_IRP_OPERATION(Data) && !FlagOn(Data->Iopb->IrpFlags, IRP_PAGING_IO) && IoGetTopLevelIrp() == NULL;
}

static FLT_PREOP_CALLBACK_STATUS PreRead(_Inout_ PFLT_CALLBACK_DATA Data, _In_ PCFLT_RELATED_OBJECTS FltObjects, _Flt_CompletionContext_Outptr_ PVOID *CompletionContext)
{
    UNREFERENCED_PARAMETER(FltObjects);
    UNREFERENCED_PARAMETER(CompletionContext);
    if (FLT_IS_FASTIO_OPERATION(Data)) {
        return FLT_PREOP_DISALLOW_FASTIO;
    }
    if (!MayBePended(Data) || InterlockedCompareExchangePointer((PVOID *)&gPended, Data, NULL) != NULL) {
        return FLT_PREOP_SUCCESS_NO_CALLBACK;
    }
    KeSetEvent(&gWake, IO_NO_INCREMENT, FALSE);
    return FLT_PREOP_PENDING;
}

static NTSTATUS QueryTeardown(_In_ PCFLT_RELATED_OBJECTS FltObjects, _In_ FLT_INSTANCE_QUERY_TEARDOWN_FLAGS Flags)
{
    UNREFERENCED_PARAMETER(FltObjects);
    UNREFERENCED_PARAMETER(Flags);
    return STATUS_SUCCESS;
}

static VOID EndThread(VOID)
{
    gIsOver = TRUE;
    KeSetEvent(&gWake, IO_NO_INCREMENT, FALSE);
    KeWaitForSingleObject(gThread, Executive, KernelMode, FALSE, NULL);
    ObDereferenceObject(gThread);
}

static NTSTATUS Unload(_In_ FLT_FILTER_UNLOAD_FLAGS Flags)
{
    UNREFERENCED_PARAMETER(Flags);
    FltUnregisterFilter(gFilter);
    EndThread();
    return STATUS_SUCCESS;
}

static const FLT_OPERATION_REGISTRATION Operations[] = {{IRP_MJ_READ, 0, PreRead, NULL}, {IRP_MJ_OPERATION_END}};

static NTSTATUS BeginThread(VOID)
{
    HANDLE thread;
    NTSTATUS status;

    gIsOver = FALSE;
    KeInitializeEvent(&gWake, SynchronizationEvent, FALSE);
    status = PsCreateSystemThread(&thread, THREAD_ALL_ACCESS, NULL, NULL, NULL, Expire, NULL);
    if (NT_SUCCESS(status)) {
        ObReferenceObjectByHandle(thread, THREAD_ALL_ACCESS, NULL, KernelMode, &gThread, NULL);
        ZwClose(thread);
    }
    return status;
}

NTSTATUS DriverEntry(_In_ PDRIVER_OBJECT DriverObject, _In_ PUNICODE_STRING RegistryPath)
{
    FLT_REGISTRATION registration = {.Size = sizeof(FLT_REGISTRATION), .Version = FLT_REGISTRATION_VERSION, .OperationRegistration = Operations, .FilterUnloadCallback = Unload, .InstanceQueryTeardownCallback = QueryTeardown};
    NTSTATUS status;

    UNREFERENCED_PARAMETER(RegistryPath);
    status = FltRegisterFilter(DriverObject, &registration, &gFilter);
    if (!NT_SUCCESS(status)) {
        return status;
    }
    status = BeginThread();
    if (NT_SUCCESS(status)) {
        status = FltStartFiltering(gFilter);
        if (NT_SUCCESS(status)) {
            return status;
        }
        EndThread();
    }
    FltUnregisterFilter(gFilter);
    return status;
}
