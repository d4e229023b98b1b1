/* No mistake: an own spin lock of interlocked calls, and a flush that polls, with pauses, until no read is inside. Nothing of it is told. */
#include "small.h"

static LONG gBusy;
static volatile LONG gInside;
static KEVENT gEvent;

static FLT_PREOP_CALLBACK_STATUS PreRead(PFLT_CALLBACK_DATA Data, PCFLT_RELATED_OBJECTS FltObjects, PVOID *CompletionContext)
{
    UNREFERENCED_PARAMETER(Data);
    UNREFERENCED_PARAMETER(FltObjects);
    UNREFERENCED_PARAMETER(CompletionContext);
    while (InterlockedCompareExchange(&gBusy, 1, 0) != 0) {
        NOTHING;
    }
    gInside++;
    KeReadStateEvent(&gEvent);
    gInside--;
    InterlockedExchange(&gBusy, 0);
    return FLT_PREOP_SUCCESS_NO_CALLBACK;
}

static FLT_PREOP_CALLBACK_STATUS PreFlush(PFLT_CALLBACK_DATA Data, PCFLT_RELATED_OBJECTS FltObjects, PVOID *CompletionContext)
{
    LARGE_INTEGER pause = {.QuadPart = -10000};

    UNREFERENCED_PARAMETER(Data);
    UNREFERENCED_PARAMETER(FltObjects);
    UNREFERENCED_PARAMETER(CompletionContext);
    while (gInside > 0) {
        KeDelayExecutionThread(KernelMode, FALSE, &pause);
    }
    return FLT_PREOP_SUCCESS_NO_CALLBACK;
}

static const FLT_OPERATION_REGISTRATION Operations[] = {{IRP_MJ_READ, 0, PreRead, NULL}, {IRP_MJ_FLUSH_BUFFERS, 0, PreFlush, NULL}, {IRP_MJ_OPERATION_END}};

NTSTATUS DriverEntry(PDRIVER_OBJECT DriverObject, PUNICODE_STRING RegistryPath)
{
    UNREFERENCED_PARAMETER(RegistryPath);
    KeInitializeEvent(&gEvent, NotificationEvent, FALSE);
    return Register(DriverObject, Operations, NULL, NULL);
}
