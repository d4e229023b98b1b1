/* A read says that it is inside and then looks whether the block is closed; a flush closes it and then looks whether a read is inside. Without a barrier between its write and its read each may see the other's
 * old value on x64: the block is freed under the read. */
#include "small.h"

static volatile LONG gInside;
static volatile LONG gIsClosed;
static PLONG gBlock;
static BOOLEAN gIsFreed;

static FLT_PREOP_CALLBACK_STATUS PreRead(PFLT_CALLBACK_DATA Data, PCFLT_RELATED_OBJECTS FltObjects, PVOID *CompletionContext)
{
    UNREFERENCED_PARAMETER(Data);
    UNREFERENCED_PARAMETER(FltObjects);
    UNREFERENCED_PARAMETER(CompletionContext);
    gInside = 1;
    if (!gIsClosed) {
        InterlockedIncrement(gBlock);
    }
    gInside = 0;
    return FLT_PREOP_SUCCESS_NO_CALLBACK;
}

static FLT_PREOP_CALLBACK_STATUS PreFlush(PFLT_CALLBACK_DATA Data, PCFLT_RELATED_OBJECTS FltObjects, PVOID *CompletionContext)
{
    UNREFERENCED_PARAMETER(Data);
    UNREFERENCED_PARAMETER(FltObjects);
    UNREFERENCED_PARAMETER(CompletionContext);
    gIsClosed = 1;
    if (!gInside) {
        ExFreePoolWithTag(gBlock, 'kclB');
        gIsFreed = TRUE;
    }
    return FLT_PREOP_SUCCESS_NO_CALLBACK;
}

static VOID TeardownStart(PCFLT_RELATED_OBJECTS FltObjects, FLT_INSTANCE_TEARDOWN_FLAGS Reason)
{
    UNREFERENCED_PARAMETER(FltObjects);
    UNREFERENCED_PARAMETER(Reason);
    if (!gIsFreed) {
        ExFreePoolWithTag(gBlock, 'kclB');
        gIsFreed = TRUE;
    }
}

static const FLT_OPERATION_REGISTRATION Operations[] = {{IRP_MJ_READ, 0, PreRead, NULL}, {IRP_MJ_FLUSH_BUFFERS, 0, PreFlush, NULL}, {IRP_MJ_OPERATION_END}};

NTSTATUS DriverEntry(PDRIVER_OBJECT DriverObject, PUNICODE_STRING RegistryPath)
{
    UNREFERENCED_PARAMETER(RegistryPath);
    gBlock = ExAllocatePoolZero(NonPagedPool, sizeof(LONG), 'kclB');
    if (gBlock == NULL) {
        return STATUS_INSUFFICIENT_RESOURCES;
    }
    return Register(DriverObject, Operations, NULL, TeardownStart);
}
