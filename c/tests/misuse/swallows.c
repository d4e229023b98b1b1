/* A handler that takes whatever comes, and forgets the lock that was taken before: the next read waits for ever on Windows. */
#include <fltKernel.h>

static PFLT_FILTER gFilter;
static EX_PUSH_LOCK gLock;
static ULONG gSum;

static FLT_PREOP_CALLBACK_STATUS PreWrite(PFLT_CALLBACK_DATA Data, PCFLT_RELATED_OBJECTS FltObjects, PVOID *CompletionContext)
{
    UNREFERENCED_PARAMETER(FltObjects);
    UNREFERENCED_PARAMETER(CompletionContext);
    __try {
        FltAcquirePushLockExclusive(&gLock);
        gSum += **(PULONG *)Data->Iopb->Parameters.Write.WriteBuffer;
        FltReleasePushLock(&gLock);
    } __except (EXCEPTION_EXECUTE_HANDLER) {
        gSum = 0;
    }
    return FLT_PREOP_SUCCESS_NO_CALLBACK;
}

static NTSTATUS Unload(FLT_FILTER_UNLOAD_FLAGS Flags)
{
    UNREFERENCED_PARAMETER(Flags);
    FltUnregisterFilter(gFilter);
    FltDeletePushLock(&gLock);
    return STATUS_SUCCESS;
}

static const FLT_OPERATION_REGISTRATION operations[] = {{IRP_MJ_WRITE, 0, PreWrite}, {IRP_MJ_OPERATION_END}};
static const FLT_REGISTRATION registration = {sizeof(registration), FLT_REGISTRATION_VERSION, 0, NULL, operations, Unload};

NTSTATUS DriverEntry(PDRIVER_OBJECT DriverObject, PUNICODE_STRING RegistryPath)
{
    NTSTATUS status = FltRegisterFilter(DriverObject, &registration, &gFilter);

    UNREFERENCED_PARAMETER(RegistryPath);
    FltInitializePushLock(&gLock);
    return NT_SUCCESS(status) ? FltStartFiltering(gFilter) : status;
}
