/* What a file object says of a deletion: in the manner of the kit's sample `delete`, by queries of the filter's own before the cleanup and behind it. */
#include <fltKernel.h>

static PFLT_FILTER gFilter;

static FLT_PREOP_CALLBACK_STATUS PreCleanup(PFLT_CALLBACK_DATA Data, PCFLT_RELATED_OBJECTS FltObjects, PVOID *Context)
{
    FILE_INTERNAL_INFORMATION id;
    FILE_STANDARD_INFORMATION information;
    NTSTATUS asked, standard;

    UNREFERENCED_PARAMETER(Data);
    UNREFERENCED_PARAMETER(Context);
    asked = FltQueryInformationFile(FltObjects->Instance, FltObjects->FileObject, &id, sizeof(id), FileInternalInformation, NULL);
    standard = FltQueryInformationFile(FltObjects->Instance, FltObjects->FileObject, &information, sizeof(information), FileStandardInformation, NULL);
    if (!NT_SUCCESS(asked) || !NT_SUCCESS(standard))
        DbgPrint("Deletes: before the cleanup ID 0x%08x, size 0x%08x\n", asked, standard);
    else if (information.DeletePending)
        DbgPrint("Deletes: %wZ of %I64d bytes is to go\n", &FltObjects->FileObject->FileName, information.EndOfFile.QuadPart);
    return FLT_PREOP_SYNCHRONIZE;
}

static FLT_POSTOP_CALLBACK_STATUS PostCleanup(PFLT_CALLBACK_DATA Data, PCFLT_RELATED_OBJECTS FltObjects, PVOID Context, FLT_POST_OPERATION_FLAGS Flags)
{
    FILE_STANDARD_INFORMATION information;
    NTSTATUS status;

    UNREFERENCED_PARAMETER(Context);
    if ((Flags & FLTFL_POST_OPERATION_DRAINING) || !NT_SUCCESS(Data->IoStatus.Status))
        return FLT_POSTOP_FINISHED_PROCESSING;
    status = FltQueryInformationFile(FltObjects->Instance, FltObjects->FileObject, &information, sizeof(information), FileStandardInformation, NULL);
    if (status == STATUS_FILE_DELETED)
        DbgPrint("Deletes: %wZ is deleted\n", &FltObjects->FileObject->FileName);
    else
        DbgPrint("Deletes: %wZ stays, 0x%08x\n", &FltObjects->FileObject->FileName, status);
    return FLT_POSTOP_FINISHED_PROCESSING;
}

static NTSTATUS Unload(FLT_FILTER_UNLOAD_FLAGS Flags)
{
    UNREFERENCED_PARAMETER(Flags);
    FltUnregisterFilter(gFilter);
    return STATUS_SUCCESS;
}

static CONST FLT_OPERATION_REGISTRATION Operations[] = {{IRP_MJ_CLEANUP, 0, PreCleanup, PostCleanup}, {IRP_MJ_OPERATION_END}};
static CONST FLT_REGISTRATION Registration = {
    .Size = sizeof(FLT_REGISTRATION), .Version = FLT_REGISTRATION_VERSION, .OperationRegistration = Operations, .FilterUnloadCallback = Unload};

NTSTATUS DriverEntry(PDRIVER_OBJECT DriverObject, PUNICODE_STRING RegistryPath)
{
    UNREFERENCED_PARAMETER(RegistryPath);
    NTSTATUS status = FltRegisterFilter(DriverObject, &Registration, &gFilter);
    return NT_SUCCESS(status) ? FltStartFiltering(gFilter) : status;
}
