/* The teardown deletes a timer of Ex and frees what its callback uses, and doesn't wait for the callback that runs. */
#include "small.h"

#define FREED_TAG 'eerF'

static PEX_TIMER gTimer;
static KEVENT gEvent;
static volatile LONG *gCount;

static VOID Fired(PEX_TIMER Timer, PVOID Context)
{
    UNREFERENCED_PARAMETER(Timer);
    UNREFERENCED_PARAMETER(Context);
    KeSetEvent(&gEvent, IO_NO_INCREMENT, FALSE);
    *gCount = 1;
}

static FLT_PREOP_CALLBACK_STATUS PreRead(PFLT_CALLBACK_DATA Data, PCFLT_RELATED_OBJECTS FltObjects, PVOID *CompletionContext)
{
    UNREFERENCED_PARAMETER(Data);
    UNREFERENCED_PARAMETER(FltObjects);
    UNREFERENCED_PARAMETER(CompletionContext);
    ExSetTimer(gTimer, -10000, 0, NULL);
    KeWaitForSingleObject(&gEvent, Executive, KernelMode, FALSE, NULL);
    return FLT_PREOP_SUCCESS_NO_CALLBACK;
}

static VOID TeardownStart(PCFLT_RELATED_OBJECTS FltObjects, FLT_INSTANCE_TEARDOWN_FLAGS Reason)
{
    UNREFERENCED_PARAMETER(FltObjects);
    UNREFERENCED_PARAMETER(Reason);
    ExDeleteTimer(gTimer, TRUE, FALSE, NULL);
    ExFreePoolWithTag((PVOID)gCount, FREED_TAG);
}

static const FLT_OPERATION_REGISTRATION Operations[] = {{IRP_MJ_READ, 0, PreRead}, {IRP_MJ_OPERATION_END}};

NTSTATUS DriverEntry(PDRIVER_OBJECT DriverObject, PUNICODE_STRING RegistryPath)
{
    UNREFERENCED_PARAMETER(RegistryPath);
    KeInitializeEvent(&gEvent, NotificationEvent, FALSE);
    gCount = ExAllocatePoolZero(NonPagedPool, sizeof *gCount, FREED_TAG);
    gTimer = ExAllocateTimer(Fired, NULL, 0);
    if (gCount == NULL || gTimer == NULL) {
        return STATUS_INSUFFICIENT_RESOURCES;
    }
    return Register(DriverObject, Operations, NULL, TeardownStart);
}
