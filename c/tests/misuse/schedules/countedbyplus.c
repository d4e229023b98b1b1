/* A reference count that is changed by ++ and --: one of two references is lost, and the block is freed under the other. */
#include "small.h"

#define COUNTED_TAG 'tnuC'

typedef struct {
    volatile LONG References;
    LONG Data;
} BLOCK, *PBLOCK;

static PBLOCK gBlock;

static FLT_PREOP_CALLBACK_STATUS PreRead(PFLT_CALLBACK_DATA Data, PCFLT_RELATED_OBJECTS FltObjects, PVOID *CompletionContext)
{
    PBLOCK block = gBlock;

    UNREFERENCED_PARAMETER(Data);
    UNREFERENCED_PARAMETER(FltObjects);
    UNREFERENCED_PARAMETER(CompletionContext);
    block->References++;
    InterlockedIncrement(&block->Data);
    if (--block->References == 0) {
        ExFreePoolWithTag(block, COUNTED_TAG);
    }
    return FLT_PREOP_SUCCESS_NO_CALLBACK;
}

static VOID TeardownStart(PCFLT_RELATED_OBJECTS FltObjects, FLT_INSTANCE_TEARDOWN_FLAGS Reason)
{
    UNREFERENCED_PARAMETER(FltObjects);
    UNREFERENCED_PARAMETER(Reason);
    if (--gBlock->References == 0) {
        ExFreePoolWithTag(gBlock, COUNTED_TAG);
    }
}

static const FLT_OPERATION_REGISTRATION Operations[] = {{IRP_MJ_READ, 0, PreRead}, {IRP_MJ_OPERATION_END}};

NTSTATUS DriverEntry(PDRIVER_OBJECT DriverObject, PUNICODE_STRING RegistryPath)
{
    UNREFERENCED_PARAMETER(RegistryPath);
    gBlock = ExAllocatePoolZero(NonPagedPool, sizeof(BLOCK), COUNTED_TAG);
    if (gBlock == NULL) {
        return STATUS_INSUFFICIENT_RESOURCES;
    }
    gBlock->References = 1;
    return Register(DriverObject, Operations, NULL, TeardownStart);
}
