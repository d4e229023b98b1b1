/* The teardown cancels a timer and frees what its routine uses, and doesn't wait for the routine that runs. */
#include "small.h"

#define FREED_TAG 'eerF'

static KTIMER gTimer;
static KDPC gDpc;
static KEVENT gEvent;
static volatile LONG *gCount;

static VOID Fired(PKDPC Dpc, PVOID DeferredContext, PVOID SystemArgument1, PVOID SystemArgument2)
{
    UNREFERENCED_PARAMETER(Dpc);
    UNREFERENCED_PARAMETER(DeferredContext);
    UNREFERENCED_PARAMETER(SystemArgument1);
    UNREFERENCED_PARAMETER(SystemArgument2);
    KeSetEvent(&gEvent, IO_NO_INCREMENT, FALSE);
    *gCount = 1;
}

static FLT_PREOP_CALLBACK_STATUS PreRead(PFLT_CALLBACK_DATA Data, PCFLT_RELATED_OBJECTS FltObjects, PVOID *CompletionContext)
{
    LARGE_INTEGER soon = {.QuadPart = -10000};

    UNREFERENCED_PARAMETER(Data);
    UNREFERENCED_PARAMETER(FltObjects);
    UNREFERENCED_PARAMETER(CompletionContext);
    KeSetTimer(&gTimer, soon, &gDpc);
    KeWaitForSingleObject(&gEvent, Executive, KernelMode, FALSE, NULL);
    return FLT_PREOP_SUCCESS_NO_CALLBACK;
}

static VOID TeardownStart(PCFLT_RELATED_OBJECTS FltObjects, FLT_INSTANCE_TEARDOWN_FLAGS Reason)
{
    UNREFERENCED_PARAMETER(FltObjects);
    UNREFERENCED_PARAMETER(Reason);
    KeCancelTimer(&gTimer);
    ExFreePoolWithTag((PVOID)gCount, FREED_TAG);
}

static const FLT_OPERATION_REGISTRATION Operations[] = {{IRP_MJ_READ, 0, PreRead}, {IRP_MJ_OPERATION_END}};

NTSTATUS DriverEntry(PDRIVER_OBJECT DriverObject, PUNICODE_STRING RegistryPath)
{
    UNREFERENCED_PARAMETER(RegistryPath);
    KeInitializeTimer(&gTimer);
    KeInitializeDpc(&gDpc, Fired, NULL);
    KeInitializeEvent(&gEvent, NotificationEvent, FALSE);
    gCount = ExAllocatePoolZero(NonPagedPool, sizeof *gCount, FREED_TAG);
    if (gCount == NULL) {
        return STATUS_INSUFFICIENT_RESOURCES;
    }
    return Register(DriverObject, Operations, NULL, TeardownStart);
}
