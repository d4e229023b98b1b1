/* A read tries for a lock in a loop, and holds another that the owner of the first waits for. */
#include "small.h"

static FAST_MUTEX gFirst, gSecond;

static FLT_PREOP_CALLBACK_STATUS PreRead(PFLT_CALLBACK_DATA Data, PCFLT_RELATED_OBJECTS FltObjects, PVOID *CompletionContext)
{
    UNREFERENCED_PARAMETER(Data);
    UNREFERENCED_PARAMETER(FltObjects);
    UNREFERENCED_PARAMETER(CompletionContext);
    ExAcquireFastMutex(&gFirst);
    while (!ExTryToAcquireFastMutex(&gSecond)) {
        NOTHING;
    }
    ExReleaseFastMutex(&gSecond);
    ExReleaseFastMutex(&gFirst);
    return FLT_PREOP_SUCCESS_NO_CALLBACK;
}

static FLT_PREOP_CALLBACK_STATUS PreFlush(PFLT_CALLBACK_DATA Data, PCFLT_RELATED_OBJECTS FltObjects, PVOID *CompletionContext)
{
    UNREFERENCED_PARAMETER(Data);
    UNREFERENCED_PARAMETER(FltObjects);
    UNREFERENCED_PARAMETER(CompletionContext);
    ExAcquireFastMutex(&gSecond);
    ExAcquireFastMutex(&gFirst);
    ExReleaseFastMutex(&gFirst);
    ExReleaseFastMutex(&gSecond);
    return FLT_PREOP_SUCCESS_NO_CALLBACK;
}

static const FLT_OPERATION_REGISTRATION Operations[] = {{IRP_MJ_READ, 0, PreRead}, {IRP_MJ_FLUSH_BUFFERS, 0, PreFlush}, {IRP_MJ_OPERATION_END}};

NTSTATUS DriverEntry(PDRIVER_OBJECT DriverObject, PUNICODE_STRING RegistryPath)
{
    UNREFERENCED_PARAMETER(RegistryPath);
    ExInitializeFastMutex(&gFirst);
    ExInitializeFastMutex(&gSecond);
    return Register(DriverObject, Operations, NULL, NULL);
}
