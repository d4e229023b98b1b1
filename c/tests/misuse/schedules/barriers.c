/* What is right on x64. A read and a flush keep each other out by a barrier between the write of the own mark and the read of the other's. Then the flush writes two numbers, and a sequence that is odd
 * while they differ: a read that saw it odd, or saw two of them, looks away. Here no barrier is needed: x64 keeps the order of writes. */
#include "small.h"

static volatile LONG gInside;
static volatile LONG gIsClosed;
static volatile LONG gSequence;
static volatile LONG gFirst;
static volatile LONG gSecond;
static LONG gBoth;

static VOID Enter(volatile LONG *Own, volatile LONG *Other)
{
    *Own = 1;
    KeMemoryBarrier();
    if (!*Other) {
        NT_ASSERT(InterlockedIncrement(&gBoth) == 1);
        InterlockedDecrement(&gBoth);
    }
    WriteRelease(Own, 0);
}

static VOID Look(VOID)
{
    LONG before = gSequence;
    LONG first = gFirst;
    LONG second = gSecond;

    if (before % 2 == 0 && gSequence == before) {
        NT_ASSERT(first == second);
    }
}

static FLT_PREOP_CALLBACK_STATUS PreRead(PFLT_CALLBACK_DATA Data, PCFLT_RELATED_OBJECTS FltObjects, PVOID *CompletionContext)
{
    UNREFERENCED_PARAMETER(Data);
    UNREFERENCED_PARAMETER(FltObjects);
    UNREFERENCED_PARAMETER(CompletionContext);
    Enter(&gInside, &gIsClosed);
    Look();
    return FLT_PREOP_SUCCESS_NO_CALLBACK;
}

static FLT_PREOP_CALLBACK_STATUS PreFlush(PFLT_CALLBACK_DATA Data, PCFLT_RELATED_OBJECTS FltObjects, PVOID *CompletionContext)
{
    UNREFERENCED_PARAMETER(Data);
    UNREFERENCED_PARAMETER(FltObjects);
    UNREFERENCED_PARAMETER(CompletionContext);
    Enter(&gIsClosed, &gInside);
    gSequence = gSequence + 1;
    gFirst = gFirst + 1;
    gSecond = gSecond + 1;
    gSequence = gSequence + 1;
    return FLT_PREOP_SUCCESS_NO_CALLBACK;
}

static const FLT_OPERATION_REGISTRATION Operations[] = {{IRP_MJ_READ, 0, PreRead, NULL}, {IRP_MJ_FLUSH_BUFFERS, 0, PreFlush, NULL}, {IRP_MJ_OPERATION_END}};

NTSTATUS DriverEntry(PDRIVER_OBJECT DriverObject, PUNICODE_STRING RegistryPath)
{
    UNREFERENCED_PARAMETER(RegistryPath);
    return Register(DriverObject, Operations, NULL, NULL);
}
