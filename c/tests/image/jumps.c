/* Functions that end by a call jump to it where a compiler optimizes: what is told has the line of that call all the same. */
#include <fltKernel.h>

static PFLT_FILTER gFilter;

/* A wrong tag: the line is that of the call below, and not that of who calls this function. */
__attribute__((noinline)) static VOID Free(PVOID Memory)
{
    ExFreePoolWithTag(Memory, 'bBbB');
}

__attribute__((noinline)) static VOID FreeByAnother(PVOID Memory)
{
    Free(Memory);
}

static FLT_PREOP_CALLBACK_STATUS PreRead(PFLT_CALLBACK_DATA Data, PCFLT_RELATED_OBJECTS FltObjects, PVOID *CompletionContext)
{
    UNREFERENCED_PARAMETER(Data);
    UNREFERENCED_PARAMETER(FltObjects);
    UNREFERENCED_PARAMETER(CompletionContext);
    FreeByAnother(ExAllocatePoolWithTag(NonPagedPool, 8, 'aAaA'));
    return FLT_PREOP_SUCCESS_NO_CALLBACK;
}

/* The host called the function that jumps. */
static VOID TeardownComplete(PCFLT_RELATED_OBJECTS FltObjects, FLT_INSTANCE_TEARDOWN_FLAGS Reason)
{
    UNREFERENCED_PARAMETER(FltObjects);
    UNREFERENCED_PARAMETER(Reason);
    ExFreePoolWithTag(ExAllocatePoolWithTag(NonPagedPool, 8, 'aAaA'), 'bBbB');
}

static NTSTATUS Unload(FLT_FILTER_UNLOAD_FLAGS Flags)
{
    UNREFERENCED_PARAMETER(Flags);
    FltUnregisterFilter(gFilter);
    return STATUS_SUCCESS;
}

static const FLT_OPERATION_REGISTRATION operations[] = {{IRP_MJ_READ, 0, PreRead}, {IRP_MJ_OPERATION_END}};
static const FLT_REGISTRATION registration = {sizeof(registration), FLT_REGISTRATION_VERSION, 0, NULL, operations, Unload, NULL, NULL, NULL, TeardownComplete};

NTSTATUS DriverEntry(PDRIVER_OBJECT DriverObject, PUNICODE_STRING RegistryPath)
{
    NTSTATUS status = FltRegisterFilter(DriverObject, &registration, &gFilter);

    UNREFERENCED_PARAMETER(RegistryPath);
    return NT_SUCCESS(status) ? FltStartFiltering(gFilter) : status;
}
