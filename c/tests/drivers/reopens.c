/* A filter in the manner of one for placeholders: a create that came upon its tag is sent down again so that it opens the reparse point itself, and one that others' sharing refused asks
 * for less the second time. */
#include <fltKernel.h>

#define IO_REPARSE_TAG_OWN 0x00000AF3
PFLT_FILTER gFilter;

static FLT_POSTOP_CALLBACK_STATUS PostCreate(PFLT_CALLBACK_DATA Data, PCFLT_RELATED_OBJECTS FltObjects, PVOID Context, FLT_POST_OPERATION_FLAGS Flags)
{
    FILE_BASIC_INFORMATION basic;
    NTSTATUS asked;

    UNREFERENCED_PARAMETER(Context);
    if (FlagOn(Flags, FLTFL_POST_OPERATION_DRAINING))
        return FLT_POSTOP_FINISHED_PROCESSING;
    if (Data->IoStatus.Status == STATUS_REPARSE && Data->TagData != NULL && Data->TagData->FileTag == IO_REPARSE_TAG_OWN)
        SetFlag(Data->Iopb->Parameters.Create.Options, FILE_OPEN_REPARSE_POINT);
    else if (Data->IoStatus.Status == STATUS_SHARING_VIOLATION)
        Data->Iopb->Parameters.Create.SecurityContext->DesiredAccess = FILE_READ_ATTRIBUTES | SYNCHRONIZE;
    else
        return FLT_POSTOP_FINISHED_PROCESSING;
    DbgPrint("Reopens: %wZ failed, 0x%08x\n", &FltObjects->FileObject->FileName, Data->IoStatus.Status);
    FltSetCallbackDataDirty(Data);
    FltReissueSynchronousIo(FltObjects->Instance, Data);
    DbgPrint("Reopens: again 0x%08x, %u\n", Data->IoStatus.Status, (ULONG)Data->IoStatus.Information);
    if (!NT_SUCCESS(Data->IoStatus.Status))
        return FLT_POSTOP_FINISHED_PROCESSING;
    asked = FltQueryInformationFile(FltObjects->Instance, FltObjects->FileObject, &basic, sizeof(basic), FileBasicInformation, NULL);
    DbgPrint("Reopens: attributes 0x%08x, 0x%08x\n", asked, NT_SUCCESS(asked) ? basic.FileAttributes : 0);
    return FLT_POSTOP_FINISHED_PROCESSING;
}

static NTSTATUS Unload(FLT_FILTER_UNLOAD_FLAGS Flags)
{
    UNREFERENCED_PARAMETER(Flags);
    FltUnregisterFilter(gFilter);
    return STATUS_SUCCESS;
}

static CONST FLT_OPERATION_REGISTRATION Operations[] = {{IRP_MJ_CREATE, 0, NULL, PostCreate}, {IRP_MJ_OPERATION_END}};
static CONST FLT_REGISTRATION Registration = {
    .Size = sizeof(FLT_REGISTRATION), .Version = FLT_REGISTRATION_VERSION, .OperationRegistration = Operations, .FilterUnloadCallback = Unload};

NTSTATUS DriverEntry(PDRIVER_OBJECT DriverObject, PUNICODE_STRING RegistryPath)
{
    NTSTATUS status;
    UNREFERENCED_PARAMETER(RegistryPath);
    status = FltRegisterFilter(DriverObject, &Registration, &gFilter);
    if (!NT_SUCCESS(status))
        return status;
    status = FltStartFiltering(gFilter);
    if (!NT_SUCCESS(status))
        FltUnregisterFilter(gFilter);
    return status;
}
