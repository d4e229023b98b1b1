/* Denies writes to files whose names end in .secret, and counts all others. It has two mistakes. */
#include <fltKernel.h>

static PFLT_FILTER gFilter;
static ULONG gWrites;

static FLT_PREOP_CALLBACK_STATUS PreWrite(PFLT_CALLBACK_DATA Data, PCFLT_RELATED_OBJECTS FltObjects, PVOID *CompletionContext)
{
    UNICODE_STRING secret = RTL_CONSTANT_STRING(L"secret");
    PFLT_FILE_NAME_INFORMATION name;

    if (FlagOn(Data->Iopb->IrpFlags, IRP_PAGING_IO) || !NT_SUCCESS(FltGetFileNameInformation(Data, FLT_FILE_NAME_NORMALIZED, &name))) {
        return FLT_PREOP_SUCCESS_NO_CALLBACK;
    }
    FltParseFileNameInformation(name);
    if (RtlEqualUnicodeString(&name->Extension, &secret, TRUE)) {
        Data->IoStatus.Status = STATUS_ACCESS_DENIED;
        Data->IoStatus.Information = 0;
        return FLT_PREOP_COMPLETE;
    }
    gWrites++;
    FltReleaseFileNameInformation(name);
    return FLT_PREOP_SUCCESS_NO_CALLBACK;
}

static NTSTATUS Unload(FLT_FILTER_UNLOAD_FLAGS Flags)
{
    DbgPrint("%lu writes\n", gWrites);
    FltUnregisterFilter(gFilter);
    return STATUS_SUCCESS;
}

static const FLT_OPERATION_REGISTRATION operations[] = {{IRP_MJ_WRITE, 0, PreWrite}, {IRP_MJ_OPERATION_END}};
static const FLT_REGISTRATION registration = {sizeof registration, FLT_REGISTRATION_VERSION, 0, NULL, operations, Unload};

NTSTATUS DriverEntry(PDRIVER_OBJECT DriverObject, PUNICODE_STRING RegistryPath)
{
    NTSTATUS status = FltRegisterFilter(DriverObject, &registration, &gFilter);

    return NT_SUCCESS(status) ? FltStartFiltering(gFilter) : status;
}
