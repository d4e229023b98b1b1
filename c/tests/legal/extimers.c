/* A read has a timer of Ex set an event, waits for it, and deletes the timer: at once, or so that its last callback is waited for. A flush lets one fire that is deleted behind that, which a callback of
 * its own says. */
#include "../misuse/schedules/small.h"

#define TIMERS_TAG 'emiT'

typedef struct {
    PEX_TIMER Timer;
    KEVENT Done, Deleted;
    LONG Asked, Answer;
} BLOCK, *PBLOCK;

static VOID Fired(PEX_TIMER Timer, PVOID Context)
{
    PBLOCK block = Context;

    NT_ASSERT(Timer == block->Timer);
    block->Answer = block->Asked + 1;
    KeSetEvent(&block->Done, IO_NO_INCREMENT, FALSE);
}

static VOID Deleted(PVOID Context)
{
    KeSetEvent(&((PBLOCK)Context)->Deleted, IO_NO_INCREMENT, FALSE);
}

static PBLOCK NewBlock(VOID)
{
    PBLOCK block = ExAllocatePoolZero(NonPagedPool, sizeof(BLOCK), TIMERS_TAG);

    if (block != NULL) {
        KeInitializeEvent(&block->Done, NotificationEvent, FALSE);
        KeInitializeEvent(&block->Deleted, NotificationEvent, FALSE);
        block->Asked = 7;
        block->Timer = ExAllocateTimer(Fired, block, EX_TIMER_NOTIFICATION);
        if (block->Timer == NULL) {
            ExFreePoolWithTag(block, TIMERS_TAG);
            block = NULL;
        }
    }
    return block;
}

static FLT_PREOP_CALLBACK_STATUS PreRead(PFLT_CALLBACK_DATA Data, PCFLT_RELATED_OBJECTS FltObjects, PVOID *CompletionContext)
{
    PBLOCK block = NewBlock();

    UNREFERENCED_PARAMETER(Data);
    UNREFERENCED_PARAMETER(FltObjects);
    UNREFERENCED_PARAMETER(CompletionContext);
    if (block != NULL) {
        NT_ASSERT(!ExSetTimer(block->Timer, -10000, 0, NULL));
        KeWaitForSingleObject(&block->Done, Executive, KernelMode, FALSE, NULL);
        NT_ASSERT(block->Answer == 8);
        NT_ASSERT(!ExCancelTimer(block->Timer, NULL));
        NT_ASSERT(!ExDeleteTimer(block->Timer, TRUE, TRUE, NULL));
        ExFreePoolWithTag(block, TIMERS_TAG);
    }
    return FLT_PREOP_SUCCESS_NO_CALLBACK;
}

static FLT_PREOP_CALLBACK_STATUS PreWrite(PFLT_CALLBACK_DATA Data, PCFLT_RELATED_OBJECTS FltObjects, PVOID *CompletionContext)
{
    PBLOCK block = NewBlock();

    UNREFERENCED_PARAMETER(Data);
    UNREFERENCED_PARAMETER(FltObjects);
    UNREFERENCED_PARAMETER(CompletionContext);
    if (block != NULL) {
        NT_ASSERT(!ExSetTimer(block->Timer, -3600LL * 1000 * 10000, 0, NULL));
        NT_ASSERT(ExSetTimer(block->Timer, -7200LL * 1000 * 10000, 0, NULL));
        NT_ASSERT(ExCancelTimer(block->Timer, NULL));
        NT_ASSERT(!ExSetTimer(block->Timer, -7200LL * 1000 * 10000, 0, NULL));
        NT_ASSERT(ExDeleteTimer(block->Timer, TRUE, TRUE, NULL));
        NT_ASSERT(block->Answer == 0);
        ExFreePoolWithTag(block, TIMERS_TAG);
    }
    return FLT_PREOP_SUCCESS_NO_CALLBACK;
}

static FLT_PREOP_CALLBACK_STATUS PreFlush(PFLT_CALLBACK_DATA Data, PCFLT_RELATED_OBJECTS FltObjects, PVOID *CompletionContext)
{
    PBLOCK block = NewBlock();
    EXT_DELETE_PARAMETERS parameters = {.DeleteCallback = Deleted, .DeleteContext = block};

    UNREFERENCED_PARAMETER(Data);
    UNREFERENCED_PARAMETER(FltObjects);
    UNREFERENCED_PARAMETER(CompletionContext);
    if (block != NULL) {
        ExSetTimer(block->Timer, -10000, 0, NULL);
        ExDeleteTimer(block->Timer, FALSE, FALSE, &parameters);
        KeWaitForSingleObject(&block->Deleted, Executive, KernelMode, FALSE, NULL);
        NT_ASSERT(block->Answer == 8);
        ExFreePoolWithTag(block, TIMERS_TAG);
    }
    return FLT_PREOP_SUCCESS_NO_CALLBACK;
}

static const FLT_OPERATION_REGISTRATION Operations[] = {{IRP_MJ_READ, 0, PreRead}, {IRP_MJ_WRITE, 0, PreWrite}, {IRP_MJ_FLUSH_BUFFERS, 0, PreFlush}, {IRP_MJ_OPERATION_END}};

NTSTATUS DriverEntry(PDRIVER_OBJECT DriverObject, PUNICODE_STRING RegistryPath)
{
    UNREFERENCED_PARAMETER(RegistryPath);
    return Register(DriverObject, Operations, NULL, NULL);
}
