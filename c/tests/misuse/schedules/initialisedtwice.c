/* A buffer is made by the first read, which looks at a flag without a lock: two make one each, and one of them leaks. */
#include "small.h"

#define ONCE_TAG 'ecnO'

static PVOID volatile gBuffer;

static FLT_PREOP_CALLBACK_STATUS PreRead(PFLT_CALLBACK_DATA Data, PCFLT_RELATED_OBJECTS FltObjects, PVOID *CompletionContext)
{
    UNREFERENCED_PARAMETER(Data);
    UNREFERENCED_PARAMETER(FltObjects);
    UNREFERENCED_PARAMETER(CompletionContext);
    if (gBuffer == NULL) {
        InterlockedExchangePointer(&gBuffer, ExAllocatePoolZero(NonPagedPool, 16, ONCE_TAG));
    }
    return FLT_PREOP_SUCCESS_NO_CALLBACK;
}

static VOID TeardownStart(PCFLT_RELATED_OBJECTS FltObjects, FLT_INSTANCE_TEARDOWN_FLAGS Reason)
{
    UNREFERENCED_PARAMETER(FltObjects);
    UNREFERENCED_PARAMETER(Reason);
    if (gBuffer != NULL) {
        ExFreePoolWithTag(gBuffer, ONCE_TAG);
    }
}

static const FLT_OPERATION_REGISTRATION Operations[] = {{IRP_MJ_READ, 0, PreRead}, {IRP_MJ_OPERATION_END}};

NTSTATUS DriverEntry(PDRIVER_OBJECT DriverObject, PUNICODE_STRING RegistryPath)
{
    UNREFERENCED_PARAMETER(RegistryPath);
    gBuffer = NULL;
    return Register(DriverObject, Operations, NULL, TeardownStart);
}
