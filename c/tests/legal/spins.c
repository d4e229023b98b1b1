/* Interlocked and volatile accesses in order. A read counts three hundred times without a call of the kit; a flush publishes data by a flag, for which a write looks again and again; and a spin lock of the driver's own orders what both change. */
#include "../misuse/schedules/small.h"

static LONG gCount, gBusy;
static volatile LONG gIsReady;
static LONG gData, gUnder;

static VOID Change(VOID)
{
    while (InterlockedCompareExchange(&gBusy, 1, 0) != 0) {
        NOTHING;
    }
    gUnder++;
    InterlockedExchange(&gBusy, 0);
}

static FLT_PREOP_CALLBACK_STATUS PreRead(PFLT_CALLBACK_DATA Data, PCFLT_RELATED_OBJECTS FltObjects, PVOID *CompletionContext)
{
    ULONG at;

    UNREFERENCED_PARAMETER(Data);
    UNREFERENCED_PARAMETER(FltObjects);
    UNREFERENCED_PARAMETER(CompletionContext);
    for (at = 0; at < 300; at++) {
        InterlockedIncrement(&gCount);
    }
    return FLT_PREOP_SUCCESS_NO_CALLBACK;
}

static FLT_PREOP_CALLBACK_STATUS PreWrite(PFLT_CALLBACK_DATA Data, PCFLT_RELATED_OBJECTS FltObjects, PVOID *CompletionContext)
{
    UNREFERENCED_PARAMETER(Data);
    UNREFERENCED_PARAMETER(FltObjects);
    UNREFERENCED_PARAMETER(CompletionContext);
    while (!gIsReady) {
        YieldProcessor();
    }
    NT_ASSERT(gData == 5);
    Change();
    return FLT_PREOP_SUCCESS_NO_CALLBACK;
}

static FLT_PREOP_CALLBACK_STATUS PreFlush(PFLT_CALLBACK_DATA Data, PCFLT_RELATED_OBJECTS FltObjects, PVOID *CompletionContext)
{
    UNREFERENCED_PARAMETER(Data);
    UNREFERENCED_PARAMETER(FltObjects);
    UNREFERENCED_PARAMETER(CompletionContext);
    if (!gIsReady) {
        gData = 5;
        gIsReady = 1;
    }
    Change();
    return FLT_PREOP_SUCCESS_NO_CALLBACK;
}

static const FLT_OPERATION_REGISTRATION Operations[] = {{IRP_MJ_READ, 0, PreRead}, {IRP_MJ_WRITE, 0, PreWrite}, {IRP_MJ_FLUSH_BUFFERS, 0, PreFlush}, {IRP_MJ_OPERATION_END}};

NTSTATUS DriverEntry(PDRIVER_OBJECT DriverObject, PUNICODE_STRING RegistryPath)
{
    UNREFERENCED_PARAMETER(RegistryPath);
    gCount = gBusy = gData = gUnder = 0;
    gIsReady = 0;
    return Register(DriverObject, Operations, NULL, NULL);
}
