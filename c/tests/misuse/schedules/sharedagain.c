/* A push lock that is taken shared twice by one thread: a writer that comes in between lets the second in no more. */
#include "small.h"

static EX_PUSH_LOCK gLock;
static LONG gData;

static FLT_PREOP_CALLBACK_STATUS PreRead(PFLT_CALLBACK_DATA Data, PCFLT_RELATED_OBJECTS FltObjects, PVOID *CompletionContext)
{
    UNREFERENCED_PARAMETER(Data);
    UNREFERENCED_PARAMETER(FltObjects);
    UNREFERENCED_PARAMETER(CompletionContext);
    FltAcquirePushLockShared(&gLock);
    FltAcquirePushLockShared(&gLock);
    FltReleasePushLock(&gLock);
    FltReleasePushLock(&gLock);
    return FLT_PREOP_SUCCESS_NO_CALLBACK;
}

static FLT_PREOP_CALLBACK_STATUS PreFlush(PFLT_CALLBACK_DATA Data, PCFLT_RELATED_OBJECTS FltObjects, PVOID *CompletionContext)
{
    UNREFERENCED_PARAMETER(Data);
    UNREFERENCED_PARAMETER(FltObjects);
    UNREFERENCED_PARAMETER(CompletionContext);
    FltAcquirePushLockExclusive(&gLock);
    gData++;
    FltReleasePushLock(&gLock);
    return FLT_PREOP_SUCCESS_NO_CALLBACK;
}

static const FLT_OPERATION_REGISTRATION Operations[] = {{IRP_MJ_READ, 0, PreRead}, {IRP_MJ_FLUSH_BUFFERS, 0, PreFlush}, {IRP_MJ_OPERATION_END}};

NTSTATUS DriverEntry(PDRIVER_OBJECT DriverObject, PUNICODE_STRING RegistryPath)
{
    UNREFERENCED_PARAMETER(RegistryPath);
    FltInitializePushLock(&gLock);
    return Register(DriverObject, Operations, NULL, NULL);
}
