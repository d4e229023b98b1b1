/* Reads are pended in a list, until a flush or the teardown lets them go on. Nothing says that the teardown began: a read that comes behind it waits for ever, and the
 * teardown waits for the read. */
#include "small.h"

static FAST_MUTEX gLock;
static LIST_ENTRY gList;

static VOID CompleteAll(VOID)
{
    PLIST_ENTRY entry = NULL;

    do {
        ExAcquireFastMutex(&gLock);
        entry = IsListEmpty(&gList) ? NULL : RemoveHeadList(&gList);
        ExReleaseFastMutex(&gLock);
        if (entry != NULL) {
            FltCompletePendedPreOperation(CONTAINING_RECORD(entry, FLT_CALLBACK_DATA, QueueLinks), FLT_PREOP_SUCCESS_NO_CALLBACK, NULL);
        }
    } while (entry != NULL);
}

static FLT_PREOP_CALLBACK_STATUS PreRead(PFLT_CALLBACK_DATA Data, PCFLT_RELATED_OBJECTS FltObjects, PVOID *CompletionContext)
{
    UNREFERENCED_PARAMETER(FltObjects);
    UNREFERENCED_PARAMETER(CompletionContext);
    ExAcquireFastMutex(&gLock);
    InsertTailList(&gList, &Data->QueueLinks);
    ExReleaseFastMutex(&gLock);
    return FLT_PREOP_PENDING;
}

static FLT_PREOP_CALLBACK_STATUS PreFlush(PFLT_CALLBACK_DATA Data, PCFLT_RELATED_OBJECTS FltObjects, PVOID *CompletionContext)
{
    UNREFERENCED_PARAMETER(Data);
    UNREFERENCED_PARAMETER(FltObjects);
    UNREFERENCED_PARAMETER(CompletionContext);
    CompleteAll();
    return FLT_PREOP_SUCCESS_NO_CALLBACK;
}

static VOID TeardownStart(PCFLT_RELATED_OBJECTS FltObjects, FLT_INSTANCE_TEARDOWN_FLAGS Reason)
{
    UNREFERENCED_PARAMETER(FltObjects);
    UNREFERENCED_PARAMETER(Reason);
    CompleteAll();
}

static const FLT_OPERATION_REGISTRATION Operations[] = {{IRP_MJ_READ, 0, PreRead, NULL}, {IRP_MJ_FLUSH_BUFFERS, 0, PreFlush, NULL}, {IRP_MJ_OPERATION_END}};

NTSTATUS DriverEntry(PDRIVER_OBJECT DriverObject, PUNICODE_STRING RegistryPath)
{
    UNREFERENCED_PARAMETER(RegistryPath);
    ExInitializeFastMutex(&gLock);
    InitializeListHead(&gList);
    return Register(DriverObject, Operations, NULL, TeardownStart);
}
