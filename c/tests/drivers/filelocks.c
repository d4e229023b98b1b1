/* A filter that answers locks of bytes by itself: requests for them never come to the file system, and reads and writes that meet one are refused. */
#include <fltKernel.h>

static PFLT_FILTER filter;
static PFILE_LOCK lock;

/* Locks of no bytes are refused. */
static NTSTATUS FLTAPI Completed(PVOID Context, PFLT_CALLBACK_DATA CallbackData)
{
    UNREFERENCED_PARAMETER(Context);
    DbgPrint("completed 0x%08x\n", CallbackData->IoStatus.Status);
    return CallbackData->Iopb->MinorFunction == IRP_MN_LOCK && !CallbackData->Iopb->Parameters.LockControl.Length->QuadPart ? STATUS_ACCESS_DENIED : CallbackData->IoStatus.Status;
}

static VOID NTAPI Unlocked(PVOID Context, PVOID FileLockInfo)
{
    PFILE_LOCK_INFO info = FileLockInfo;
    UNREFERENCED_PARAMETER(Context);
    DbgPrint("unlocked %I64d to %I64d%s\n", info->StartingByte.QuadPart, info->EndingByte.QuadPart, info->ExclusiveLock ? " exclusive" : "");
}

static FLT_PREOP_CALLBACK_STATUS PreLock(PFLT_CALLBACK_DATA Data, PCFLT_RELATED_OBJECTS FltObjects, PVOID *CompletionContext)
{
    UNREFERENCED_PARAMETER(FltObjects);
    UNREFERENCED_PARAMETER(CompletionContext);
    return FltProcessFileLock(lock, Data, NULL);
}

static FLT_PREOP_CALLBACK_STATUS PreData(PFLT_CALLBACK_DATA Data, PCFLT_RELATED_OBJECTS FltObjects, PVOID *CompletionContext)
{
    BOOLEAN may = Data->Iopb->MajorFunction == IRP_MJ_READ ? FltCheckLockForReadAccess(lock, Data) : FltCheckLockForWriteAccess(lock, Data);
    UNREFERENCED_PARAMETER(FltObjects);
    UNREFERENCED_PARAMETER(CompletionContext);
    if (may || FlagOn(Data->Iopb->IrpFlags, IRP_PAGING_IO))
        return FLT_PREOP_SUCCESS_NO_CALLBACK;
    Data->IoStatus.Status = STATUS_FILE_LOCK_CONFLICT;
    return FLT_PREOP_COMPLETE;
}

static FLT_PREOP_CALLBACK_STATUS PreCleanup(PFLT_CALLBACK_DATA Data, PCFLT_RELATED_OBJECTS FltObjects, PVOID *CompletionContext)
{
    UNREFERENCED_PARAMETER(CompletionContext);
    FsRtlFastUnlockAll(lock, FltObjects->FileObject, FltGetRequestorProcess(Data), NULL);
    DbgPrint("locks are there: %d\n", FsRtlAreThereCurrentFileLocks(lock));
    return FLT_PREOP_SUCCESS_NO_CALLBACK;
}

static NTSTATUS Unload(FLT_FILTER_UNLOAD_FLAGS Flags)
{
    UNREFERENCED_PARAMETER(Flags);
    FltUnregisterFilter(filter);
    FltFreeFileLock(lock);
    return STATUS_SUCCESS;
}

static const FLT_OPERATION_REGISTRATION callbacks[] = {{IRP_MJ_LOCK_CONTROL, 0, PreLock, NULL, NULL},
                                                       {IRP_MJ_READ, 0, PreData, NULL, NULL},
                                                       {IRP_MJ_WRITE, 0, PreData, NULL, NULL},
                                                       {IRP_MJ_CLEANUP, 0, PreCleanup, NULL, NULL},
                                                       {IRP_MJ_OPERATION_END}};
static const FLT_REGISTRATION registration = {sizeof(FLT_REGISTRATION), FLT_REGISTRATION_VERSION, 0, NULL, callbacks, Unload};

NTSTATUS DriverEntry(PDRIVER_OBJECT DriverObject, PUNICODE_STRING RegistryPath)
{
    NTSTATUS status;
    UNREFERENCED_PARAMETER(RegistryPath);
    lock = FltAllocateFileLock(Completed, Unlocked);
    if (lock == NULL)
        return STATUS_INSUFFICIENT_RESOURCES;
    status = FltRegisterFilter(DriverObject, &registration, &filter);
    if (NT_SUCCESS(status))
        status = FltStartFiltering(filter);
    if (!NT_SUCCESS(status))
        FltFreeFileLock(lock);
    return status;
}
