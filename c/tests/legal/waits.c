/* Waits for one of several objects, and for all of them: a flush answers each read by one of two events, and each write by an event and a semaphore. */
#include "../misuse/schedules/small.h"

static KEVENT gFirst, gSecond, gBoth;
static KSEMAPHORE gPermits;
static LONG gData;

static FLT_PREOP_CALLBACK_STATUS PreRead(PFLT_CALLBACK_DATA Data, PCFLT_RELATED_OBJECTS FltObjects, PVOID *CompletionContext)
{
    PVOID objects[2] = {&gFirst, &gSecond};
    LONG seen = 1;

    UNREFERENCED_PARAMETER(Data);
    UNREFERENCED_PARAMETER(FltObjects);
    UNREFERENCED_PARAMETER(CompletionContext);
    if (KeWaitForMultipleObjects(2, objects, WaitAny, Executive, KernelMode, FALSE, NULL, NULL) == STATUS_WAIT_1) {
        seen = gData;
    }
    NT_ASSERT(seen == 1);
    return FLT_PREOP_SUCCESS_NO_CALLBACK;
}

static FLT_PREOP_CALLBACK_STATUS PreWrite(PFLT_CALLBACK_DATA Data, PCFLT_RELATED_OBJECTS FltObjects, PVOID *CompletionContext)
{
    PVOID objects[2] = {&gBoth, &gPermits};

    UNREFERENCED_PARAMETER(FltObjects);
    UNREFERENCED_PARAMETER(CompletionContext);
    if (FltCancellableWaitForMultipleObjects(2, objects, WaitAll, NULL, NULL, Data) == STATUS_SUCCESS) {
        NT_ASSERT(gData == 1);
    }
    return FLT_PREOP_SUCCESS_NO_CALLBACK;
}

static FLT_PREOP_CALLBACK_STATUS PreFlush(PFLT_CALLBACK_DATA Data, PCFLT_RELATED_OBJECTS FltObjects, PVOID *CompletionContext)
{
    UNREFERENCED_PARAMETER(Data);
    UNREFERENCED_PARAMETER(FltObjects);
    UNREFERENCED_PARAMETER(CompletionContext);
    if (KeReadStateEvent(&gSecond) == 0) {
        gData = 1;
        KeSetEvent(&gSecond, IO_NO_INCREMENT, FALSE);
    }
    KeReleaseSemaphore(&gPermits, IO_NO_INCREMENT, 1, FALSE);
    KeSetEvent(&gBoth, IO_NO_INCREMENT, FALSE);
    return FLT_PREOP_SUCCESS_NO_CALLBACK;
}

static const FLT_OPERATION_REGISTRATION Operations[] = {{IRP_MJ_READ, 0, PreRead}, {IRP_MJ_WRITE, 0, PreWrite}, {IRP_MJ_FLUSH_BUFFERS, 0, PreFlush}, {IRP_MJ_OPERATION_END}};

NTSTATUS DriverEntry(PDRIVER_OBJECT DriverObject, PUNICODE_STRING RegistryPath)
{
    UNREFERENCED_PARAMETER(RegistryPath);
    gData = 0;
    KeInitializeEvent(&gFirst, NotificationEvent, FALSE);
    KeInitializeEvent(&gSecond, NotificationEvent, FALSE);
    KeInitializeEvent(&gBoth, NotificationEvent, FALSE);
    KeInitializeSemaphore(&gPermits, 0, 1000000);
    return Register(DriverObject, Operations, NULL, NULL);
}
