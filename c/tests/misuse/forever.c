/* Callbacks that don't come to an end: one that makes no call, one that waits a little again and again, and a timer's routine that spins at DISPATCH_LEVEL. */
#include <fltKernel.h>

static PFLT_FILTER gFilter;
static volatile LONG gFlag;
static ULONG gCount;
static KTIMER gTimer;
static KDPC gDpc;

static FLT_PREOP_CALLBACK_STATUS PreRead(PFLT_CALLBACK_DATA Data, PCFLT_RELATED_OBJECTS FltObjects, PVOID *CompletionContext)
{
    UNREFERENCED_PARAMETER(FltObjects);
    UNREFERENCED_PARAMETER(CompletionContext);
    while (Data->Iopb->Parameters.Read.Length == 5) {
        gCount += 3;
    }
    return FLT_PREOP_SUCCESS_NO_CALLBACK;
}

static FLT_PREOP_CALLBACK_STATUS PreWrite(PFLT_CALLBACK_DATA Data, PCFLT_RELATED_OBJECTS FltObjects, PVOID *CompletionContext)
{
    LARGE_INTEGER little;

    UNREFERENCED_PARAMETER(Data);
    UNREFERENCED_PARAMETER(FltObjects);
    UNREFERENCED_PARAMETER(CompletionContext);
    little.QuadPart = -10000;
    while (gFlag == 0) {
        KeDelayExecutionThread(KernelMode, FALSE, &little);
    }
    return FLT_PREOP_SUCCESS_NO_CALLBACK;
}

static VOID Fire(PKDPC Dpc, PVOID Context, PVOID First, PVOID Second)
{
    UNREFERENCED_PARAMETER(Dpc);
    UNREFERENCED_PARAMETER(Context);
    UNREFERENCED_PARAMETER(First);
    UNREFERENCED_PARAMETER(Second);
    while (gFlag == 0) {
        YieldProcessor();
    }
}

static FLT_PREOP_CALLBACK_STATUS PreFlush(PFLT_CALLBACK_DATA Data, PCFLT_RELATED_OBJECTS FltObjects, PVOID *CompletionContext)
{
    UNREFERENCED_PARAMETER(Data);
    UNREFERENCED_PARAMETER(FltObjects);
    UNREFERENCED_PARAMETER(CompletionContext);
    KeInsertQueueDpc(&gDpc, NULL, NULL);
    return FLT_PREOP_SUCCESS_NO_CALLBACK;
}

static NTSTATUS Unload(FLT_FILTER_UNLOAD_FLAGS Flags)
{
    UNREFERENCED_PARAMETER(Flags);
    FltUnregisterFilter(gFilter);
    return STATUS_SUCCESS;
}

static CONST FLT_OPERATION_REGISTRATION Callbacks[] = {{IRP_MJ_READ, 0, PreRead}, {IRP_MJ_WRITE, 0, PreWrite}, {IRP_MJ_FLUSH_BUFFERS, 0, PreFlush}, {IRP_MJ_OPERATION_END}};
static CONST FLT_REGISTRATION Registration = {sizeof(FLT_REGISTRATION), FLT_REGISTRATION_VERSION, 0, NULL, Callbacks, Unload};

NTSTATUS DriverEntry(PDRIVER_OBJECT DriverObject, PUNICODE_STRING RegistryPath)
{
    NTSTATUS status = FltRegisterFilter(DriverObject, &Registration, &gFilter);

    UNREFERENCED_PARAMETER(RegistryPath);
    KeInitializeTimer(&gTimer);
    KeInitializeDpc(&gDpc, Fire, NULL);
    return NT_SUCCESS(status) ? FltStartFiltering(gFilter) : status;
}
