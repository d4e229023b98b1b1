/* A flush publishes a block by an interlocked call, and then fills it: a read finds it half done. */
#include "small.h"

typedef struct {
    volatile LONG Size, Check;
} BLOCK, *PBLOCK;

static BLOCK gRoom;
static PVOID volatile gBlock;

static FLT_PREOP_CALLBACK_STATUS PreRead(PFLT_CALLBACK_DATA Data, PCFLT_RELATED_OBJECTS FltObjects, PVOID *CompletionContext)
{
    PBLOCK block = gBlock;

    UNREFERENCED_PARAMETER(Data);
    UNREFERENCED_PARAMETER(FltObjects);
    UNREFERENCED_PARAMETER(CompletionContext);
    if (block != NULL) {
        NT_ASSERT(block->Size == 8 && block->Check == 8);
    }
    return FLT_PREOP_SUCCESS_NO_CALLBACK;
}

static FLT_PREOP_CALLBACK_STATUS PreFlush(PFLT_CALLBACK_DATA Data, PCFLT_RELATED_OBJECTS FltObjects, PVOID *CompletionContext)
{
    UNREFERENCED_PARAMETER(Data);
    UNREFERENCED_PARAMETER(FltObjects);
    UNREFERENCED_PARAMETER(CompletionContext);
    InterlockedExchangePointer(&gBlock, &gRoom);
    gRoom.Size = 8;
    gRoom.Check = 8;
    return FLT_PREOP_SUCCESS_NO_CALLBACK;
}

static const FLT_OPERATION_REGISTRATION Operations[] = {{IRP_MJ_READ, 0, PreRead}, {IRP_MJ_FLUSH_BUFFERS, 0, PreFlush}, {IRP_MJ_OPERATION_END}};

NTSTATUS DriverEntry(PDRIVER_OBJECT DriverObject, PUNICODE_STRING RegistryPath)
{
    UNREFERENCED_PARAMETER(RegistryPath);
    gBlock = NULL;
    gRoom.Size = gRoom.Check = 0;
    return Register(DriverObject, Operations, NULL, NULL);
}
