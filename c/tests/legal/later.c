/* A read waits for a timer: its preoperation pends it, and the timer's routine lets it go on, at DISPATCH_LEVEL. */
#include "../misuse/schedules/small.h"

#define LATER_TAG 'etaL'

typedef struct {
    KTIMER Timer;
    KDPC Dpc;
    PFLT_CALLBACK_DATA Data;
} DELAY, *PDELAY;

static VOID GoOn(PKDPC Dpc, PVOID DeferredContext, PVOID SystemArgument1, PVOID SystemArgument2)
{
    PDELAY delay = DeferredContext;
    PFLT_CALLBACK_DATA data = delay->Data;

    UNREFERENCED_PARAMETER(Dpc);
    UNREFERENCED_PARAMETER(SystemArgument1);
    UNREFERENCED_PARAMETER(SystemArgument2);
    ExFreePoolWithTag(delay, LATER_TAG);
    FltCompletePendedPreOperation(data, FLT_PREOP_SUCCESS_NO_CALLBACK, NULL);
}

static FLT_PREOP_CALLBACK_STATUS PreRead(PFLT_CALLBACK_DATA Data, PCFLT_RELATED_OBJECTS FltObjects, PVOID *CompletionContext)
{
    LARGE_INTEGER soon = {.QuadPart = -10000};
    PDELAY delay;

    UNREFERENCED_PARAMETER(FltObjects);
    UNREFERENCED_PARAMETER(CompletionContext);
    if (!FLT_IS_IRP_OPERATION(Data)) {
        return FLT_PREOP_DISALLOW_FASTIO;
    }
    delay = ExAllocatePoolZero(NonPagedPoolNx, sizeof(DELAY), LATER_TAG);
    if (delay == NULL) {
        return FLT_PREOP_SUCCESS_NO_CALLBACK;
    }
    delay->Data = Data;
    KeInitializeTimer(&delay->Timer);
    KeInitializeDpc(&delay->Dpc, GoOn, delay);
    KeSetTimer(&delay->Timer, soon, &delay->Dpc);
    return FLT_PREOP_PENDING;
}

static const FLT_OPERATION_REGISTRATION Operations[] = {{IRP_MJ_READ, 0, PreRead}, {IRP_MJ_OPERATION_END}};

NTSTATUS DriverEntry(PDRIVER_OBJECT DriverObject, PUNICODE_STRING RegistryPath)
{
    UNREFERENCED_PARAMETER(RegistryPath);
    return Register(DriverObject, Operations, NULL, NULL);
}
