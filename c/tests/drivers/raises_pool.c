/* A read takes pool in the way that its offset says, and is completed with how that was refused: by an exception's code, or by NULL. */
#include "../misuse/schedules/small.h"

#define RAISES_TAG 'siaR'

static PVOID Take(LONGLONG Way)
{
    switch (Way) {
    case 0:
        return ExAllocatePoolWithQuotaTag(PagedPool, 16, RAISES_TAG);
    case 1:
        return ExAllocatePoolWithQuotaTag((POOL_TYPE)(PagedPool | POOL_QUOTA_FAIL_INSTEAD_OF_RAISE), 16, RAISES_TAG);
    case 2:
        return ExAllocatePool2(POOL_FLAG_PAGED | POOL_FLAG_RAISE_ON_FAILURE, 16, RAISES_TAG);
    case 3:
        return ExAllocatePool2(POOL_FLAG_PAGED, 16, RAISES_TAG);
    default:
        return ExAllocatePoolWithTag((POOL_TYPE)(PagedPool | POOL_RAISE_IF_ALLOCATION_FAILURE), 16, RAISES_TAG);
    }
}

static FLT_PREOP_CALLBACK_STATUS PreRead(PFLT_CALLBACK_DATA Data, PCFLT_RELATED_OBJECTS FltObjects, PVOID *CompletionContext)
{
    PVOID taken = NULL;

    UNREFERENCED_PARAMETER(FltObjects);
    UNREFERENCED_PARAMETER(CompletionContext);
    Data->IoStatus.Status = STATUS_NO_MEMORY;
    __try {
        taken = Take(Data->Iopb->Parameters.Read.ByteOffset.QuadPart);
    } __except (EXCEPTION_EXECUTE_HANDLER) {
        Data->IoStatus.Status = GetExceptionCode();
    }
    if (taken != NULL) {
        ExFreePoolWithTag(taken, RAISES_TAG);
        Data->IoStatus.Status = STATUS_SUCCESS;
    }
    return FLT_PREOP_COMPLETE;
}

static const FLT_OPERATION_REGISTRATION Operations[] = {{IRP_MJ_READ, 0, PreRead}, {IRP_MJ_OPERATION_END}};

NTSTATUS DriverEntry(PDRIVER_OBJECT DriverObject, PUNICODE_STRING RegistryPath)
{
    UNREFERENCED_PARAMETER(RegistryPath);
    return Register(DriverObject, Operations, NULL, NULL);
}
