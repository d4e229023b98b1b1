/* A read puts a block into a list by the kit's call, under its lock; a flush takes one out without it. */
#include "small.h"

typedef struct _BLOCK {
    LIST_ENTRY Links;
} BLOCK, *PBLOCK;

static LIST_ENTRY gHead;
static KSPIN_LOCK gLock;

static FLT_PREOP_CALLBACK_STATUS PreRead(PFLT_CALLBACK_DATA Data, PCFLT_RELATED_OBJECTS FltObjects, PVOID *CompletionContext)
{
    PBLOCK block = ExAllocatePoolWithTag(NonPagedPool, sizeof(BLOCK), 'tsiL');

    UNREFERENCED_PARAMETER(Data);
    UNREFERENCED_PARAMETER(FltObjects);
    UNREFERENCED_PARAMETER(CompletionContext);
    if (block != NULL) {
        ExInterlockedInsertTailList(&gHead, &block->Links, &gLock);
    }
    return FLT_PREOP_SUCCESS_NO_CALLBACK;
}

static VOID TakeAll(VOID)
{
    while (!IsListEmpty(&gHead)) {
        ExFreePoolWithTag(CONTAINING_RECORD(RemoveHeadList(&gHead), BLOCK, Links), 'tsiL');
    }
}

static FLT_PREOP_CALLBACK_STATUS PreFlush(PFLT_CALLBACK_DATA Data, PCFLT_RELATED_OBJECTS FltObjects, PVOID *CompletionContext)
{
    UNREFERENCED_PARAMETER(Data);
    UNREFERENCED_PARAMETER(FltObjects);
    UNREFERENCED_PARAMETER(CompletionContext);
    TakeAll();
    return FLT_PREOP_SUCCESS_NO_CALLBACK;
}

static VOID TeardownStart(PCFLT_RELATED_OBJECTS FltObjects, FLT_INSTANCE_TEARDOWN_FLAGS Reason)
{
    UNREFERENCED_PARAMETER(FltObjects);
    UNREFERENCED_PARAMETER(Reason);
    TakeAll();
}

static const FLT_OPERATION_REGISTRATION Operations[] = {{IRP_MJ_READ, 0, PreRead, NULL}, {IRP_MJ_FLUSH_BUFFERS, 0, PreFlush, NULL}, {IRP_MJ_OPERATION_END}};

NTSTATUS DriverEntry(PDRIVER_OBJECT DriverObject, PUNICODE_STRING RegistryPath)
{
    UNREFERENCED_PARAMETER(RegistryPath);
    InitializeListHead(&gHead);
    KeInitializeSpinLock(&gLock);
    return Register(DriverObject, Operations, NULL, TeardownStart);
}
