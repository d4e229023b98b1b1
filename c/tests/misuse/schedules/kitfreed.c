/* A flush takes a block away and frees it, while a read uses what lies in it by calls of the kit: a rundown protection, a lock, an event. No access of the driver's own meets the freed memory. */
#include "small.h"

typedef struct _BLOCK {
    EX_RUNDOWN_REF Rundown;
    EX_PUSH_LOCK Lock;
    KEVENT Event;
} BLOCK, *PBLOCK;

static PBLOCK volatile gBlock;

static FLT_PREOP_CALLBACK_STATUS PreRead(PFLT_CALLBACK_DATA Data, PCFLT_RELATED_OBJECTS FltObjects, PVOID *CompletionContext)
{
    PBLOCK block = gBlock;

    UNREFERENCED_PARAMETER(FltObjects);
    UNREFERENCED_PARAMETER(CompletionContext);
    if (block == NULL) {
        return FLT_PREOP_SUCCESS_NO_CALLBACK;
    }
    switch (Data->Iopb->Parameters.Read.ByteOffset.QuadPart) {
    case 0:
        if (ExAcquireRundownProtection(&block->Rundown)) {
            ExReleaseRundownProtection(&block->Rundown);
        }
        break;
    case 1:
        FltAcquirePushLockShared(&block->Lock);
        FltReleasePushLock(&block->Lock);
        break;
    default:
        KeSetEvent(&block->Event, IO_NO_INCREMENT, FALSE);
        break;
    }
    return FLT_PREOP_SUCCESS_NO_CALLBACK;
}

static FLT_PREOP_CALLBACK_STATUS PreFlush(PFLT_CALLBACK_DATA Data, PCFLT_RELATED_OBJECTS FltObjects, PVOID *CompletionContext)
{
    PBLOCK block = InterlockedExchangePointer((PVOID volatile *)&gBlock, NULL);

    UNREFERENCED_PARAMETER(Data);
    UNREFERENCED_PARAMETER(FltObjects);
    UNREFERENCED_PARAMETER(CompletionContext);
    if (block != NULL) {
        ExWaitForRundownProtectionRelease(&block->Rundown);
        FltDeletePushLock(&block->Lock);
        ExFreePoolWithTag(block, 'kclB');
    }
    return FLT_PREOP_SUCCESS_NO_CALLBACK;
}

static const FLT_OPERATION_REGISTRATION Operations[] = {{IRP_MJ_READ, 0, PreRead, NULL}, {IRP_MJ_FLUSH_BUFFERS, 0, PreFlush, NULL}, {IRP_MJ_OPERATION_END}};

NTSTATUS DriverEntry(PDRIVER_OBJECT DriverObject, PUNICODE_STRING RegistryPath)
{
    UNREFERENCED_PARAMETER(RegistryPath);
    gBlock = ExAllocatePoolZero(NonPagedPool, sizeof(BLOCK), 'kclB');
    if (gBlock == NULL) {
        return STATUS_INSUFFICIENT_RESOURCES;
    }
    ExInitializeRundownProtection(&gBlock->Rundown);
    FltInitializePushLock(&gBlock->Lock);
    KeInitializeEvent(&gBlock->Event, NotificationEvent, FALSE);
    return Register(DriverObject, Operations, NULL, NULL);
}
