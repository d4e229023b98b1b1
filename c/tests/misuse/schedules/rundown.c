/* A read that finds nothing goes out by a way on which it keeps its rundown protection: whoever waits for that waits for ever. */
#include "small.h"

static EX_RUNDOWN_REF gRundown;

static FLT_PREOP_CALLBACK_STATUS PreRead(PFLT_CALLBACK_DATA Data, PCFLT_RELATED_OBJECTS FltObjects, PVOID *CompletionContext)
{
    UNREFERENCED_PARAMETER(FltObjects);
    UNREFERENCED_PARAMETER(CompletionContext);
    if (!ExAcquireRundownProtection(&gRundown)) {
        return FLT_PREOP_SUCCESS_NO_CALLBACK;
    }
    if (Data->Iopb->Parameters.Read.Length == 1) {
        return FLT_PREOP_SUCCESS_NO_CALLBACK;
    }
    ExReleaseRundownProtection(&gRundown);
    return FLT_PREOP_SUCCESS_NO_CALLBACK;
}

static VOID TeardownStart(PCFLT_RELATED_OBJECTS FltObjects, FLT_INSTANCE_TEARDOWN_FLAGS Reason)
{
    UNREFERENCED_PARAMETER(FltObjects);
    UNREFERENCED_PARAMETER(Reason);
    ExWaitForRundownProtectionRelease(&gRundown);
}

static const FLT_OPERATION_REGISTRATION Operations[] = {{IRP_MJ_READ, 0, PreRead}, {IRP_MJ_OPERATION_END}};

NTSTATUS DriverEntry(PDRIVER_OBJECT DriverObject, PUNICODE_STRING RegistryPath)
{
    UNREFERENCED_PARAMETER(RegistryPath);
    ExInitializeRundownProtection(&gRundown);
    return Register(DriverObject, Operations, NULL, TeardownStart);
}
