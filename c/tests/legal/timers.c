/* A read gives data to the routine of a timer, waits for an event that only that routine sets, and frees the memory once no routine runs any more. A write does so with a DPC that it queues itself. */
#include "../misuse/schedules/small.h"

#define TIMERS_TAG 'emiT'

typedef struct {
    KTIMER Timer;
    KDPC Dpc;
    KEVENT Done;
    LONG Asked, Answer;
} BLOCK, *PBLOCK;

static VOID Fired(PKDPC Dpc, PVOID DeferredContext, PVOID SystemArgument1, PVOID SystemArgument2)
{
    PBLOCK block = DeferredContext;

    UNREFERENCED_PARAMETER(Dpc);
    UNREFERENCED_PARAMETER(SystemArgument1);
    UNREFERENCED_PARAMETER(SystemArgument2);
    block->Answer = block->Asked + 1;
    KeSetEvent(&block->Done, IO_NO_INCREMENT, FALSE);
}

static PBLOCK NewBlock(VOID)
{
    PBLOCK block = ExAllocatePoolZero(NonPagedPool, sizeof(BLOCK), TIMERS_TAG);

    if (block != NULL) {
        KeInitializeTimer(&block->Timer);
        KeInitializeDpc(&block->Dpc, Fired, block);
        KeInitializeEvent(&block->Done, NotificationEvent, FALSE);
        block->Asked = 7;
    }
    return block;
}

static VOID Finish(PBLOCK Block)
{
    KeWaitForSingleObject(&Block->Done, Executive, KernelMode, FALSE, NULL);
    NT_ASSERT(Block->Answer == 8);
    KeFlushQueuedDpcs();
    ExFreePoolWithTag(Block, TIMERS_TAG);
}

static FLT_PREOP_CALLBACK_STATUS PreRead(PFLT_CALLBACK_DATA Data, PCFLT_RELATED_OBJECTS FltObjects, PVOID *CompletionContext)
{
    LARGE_INTEGER soon = {.QuadPart = -10000};
    PBLOCK block = NewBlock();

    UNREFERENCED_PARAMETER(Data);
    UNREFERENCED_PARAMETER(FltObjects);
    UNREFERENCED_PARAMETER(CompletionContext);
    if (block != NULL) {
        KeSetTimer(&block->Timer, soon, &block->Dpc);
        Finish(block);
    }
    return FLT_PREOP_SUCCESS_NO_CALLBACK;
}

static FLT_PREOP_CALLBACK_STATUS PreWrite(PFLT_CALLBACK_DATA Data, PCFLT_RELATED_OBJECTS FltObjects, PVOID *CompletionContext)
{
    PBLOCK block = NewBlock();

    UNREFERENCED_PARAMETER(Data);
    UNREFERENCED_PARAMETER(FltObjects);
    UNREFERENCED_PARAMETER(CompletionContext);
    if (block != NULL) {
        KeInsertQueueDpc(&block->Dpc, NULL, NULL);
        Finish(block);
    }
    return FLT_PREOP_SUCCESS_NO_CALLBACK;
}

static const FLT_OPERATION_REGISTRATION Operations[] = {{IRP_MJ_READ, 0, PreRead}, {IRP_MJ_WRITE, 0, PreWrite}, {IRP_MJ_OPERATION_END}};

NTSTATUS DriverEntry(PDRIVER_OBJECT DriverObject, PUNICODE_STRING RegistryPath)
{
    UNREFERENCED_PARAMETER(RegistryPath);
    return Register(DriverObject, Operations, NULL, NULL);
}
