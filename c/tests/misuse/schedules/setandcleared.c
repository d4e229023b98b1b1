/* A read waits for an event. A flush sets it, and clears it again or takes it itself: only a read that goes on in between finds the door open, which is the mistake. A write sets it for good. */
#include "small.h"

static KEVENT gEvents[2];
static volatile LONG gOpen, gSomebodyWaits;

static FLT_PREOP_CALLBACK_STATUS PreRead(PFLT_CALLBACK_DATA Data, PCFLT_RELATED_OBJECTS FltObjects, PVOID *CompletionContext)
{
    UNREFERENCED_PARAMETER(FltObjects);
    UNREFERENCED_PARAMETER(CompletionContext);
    InterlockedExchange(&gSomebodyWaits, 1);
    KeWaitForSingleObject(&gEvents[Data->Iopb->Parameters.Read.ByteOffset.LowPart], Executive, KernelMode, FALSE, NULL);
    FLT_ASSERT(!gOpen);
    return FLT_PREOP_SUCCESS_NO_CALLBACK;
}

static FLT_PREOP_CALLBACK_STATUS PreFlush(PFLT_CALLBACK_DATA Data, PCFLT_RELATED_OBJECTS FltObjects, PVOID *CompletionContext)
{
    LARGE_INTEGER none = {.QuadPart = 0};

    UNREFERENCED_PARAMETER(Data);
    UNREFERENCED_PARAMETER(FltObjects);
    UNREFERENCED_PARAMETER(CompletionContext);
    if (gSomebodyWaits) {
        InterlockedExchange(&gOpen, 1);
        KeSetEvent(&gEvents[0], IO_NO_INCREMENT, FALSE);
        KeClearEvent(&gEvents[0]);
        KeSetEvent(&gEvents[1], IO_NO_INCREMENT, FALSE);
        KeWaitForSingleObject(&gEvents[1], Executive, KernelMode, FALSE, &none);
        InterlockedExchange(&gOpen, 0);
    }
    return FLT_PREOP_SUCCESS_NO_CALLBACK;
}

static FLT_PREOP_CALLBACK_STATUS PreWrite(PFLT_CALLBACK_DATA Data, PCFLT_RELATED_OBJECTS FltObjects, PVOID *CompletionContext)
{
    UNREFERENCED_PARAMETER(Data);
    UNREFERENCED_PARAMETER(FltObjects);
    UNREFERENCED_PARAMETER(CompletionContext);
    KeSetEvent(&gEvents[0], IO_NO_INCREMENT, FALSE);
    KeSetEvent(&gEvents[1], IO_NO_INCREMENT, FALSE);
    return FLT_PREOP_SUCCESS_NO_CALLBACK;
}

static const FLT_OPERATION_REGISTRATION Operations[] = {{IRP_MJ_READ, 0, PreRead, NULL}, {IRP_MJ_WRITE, 0, PreWrite, NULL}, {IRP_MJ_FLUSH_BUFFERS, 0, PreFlush, NULL}, {IRP_MJ_OPERATION_END}};

NTSTATUS DriverEntry(PDRIVER_OBJECT DriverObject, PUNICODE_STRING RegistryPath)
{
    UNREFERENCED_PARAMETER(RegistryPath);
    KeInitializeEvent(&gEvents[0], NotificationEvent, FALSE);
    KeInitializeEvent(&gEvents[1], SynchronizationEvent, FALSE);
    return Register(DriverObject, Operations, NULL, NULL);
}
