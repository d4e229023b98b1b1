/* What a rename opens first, the folder that it leads to: shown as its create and in the rename itself. Folders by the name `closed` can't be opened so, and what leads to `old` goes to
 * `new` instead. */
#include <fltKernel.h>

PFLT_FILTER gFilter;

static BOOLEAN HasName(PFLT_CALLBACK_DATA Data, PCWSTR Part)
{
    PFLT_FILE_NAME_INFORMATION name;
    UNICODE_STRING wanted;
    BOOLEAN is;
    RtlInitUnicodeString(&wanted, Part);
    if (!NT_SUCCESS(FltGetFileNameInformation(Data, FLT_FILE_NAME_OPENED | FLT_FILE_NAME_QUERY_DEFAULT, &name)))
        return FALSE;
    FltParseFileNameInformation(name);
    DbgPrint("Targets: the folder is %wZ\n", &name->Name);
    is = RtlEqualUnicodeString(&name->FinalComponent, &wanted, TRUE);
    FltReleaseFileNameInformation(name);
    return is;
}

static FLT_PREOP_CALLBACK_STATUS PreCreate(PFLT_CALLBACK_DATA Data, PCFLT_RELATED_OBJECTS FltObjects, PVOID *Context)
{
    PFILE_OBJECT file = FltObjects->FileObject;
    UNICODE_STRING old = RTL_CONSTANT_STRING(L"\\old\\x");
    WCHAR fresh[] = L"\\Device\\v0\\new\\y";

    UNREFERENCED_PARAMETER(Context);
    if (!FlagOn(Data->Iopb->OperationFlags, SL_OPEN_TARGET_DIRECTORY))
        return FLT_PREOP_SUCCESS_NO_CALLBACK;
    DbgPrint("Targets: create for %wZ, flags 0x%02x, access 0x%08x, options 0x%08x, mode %d\n", &file->FileName, Data->Iopb->OperationFlags,
             Data->Iopb->Parameters.Create.SecurityContext->DesiredAccess, Data->Iopb->Parameters.Create.Options, Data->RequestorMode);
    if (HasName(Data, L"closed")) {
        Data->IoStatus.Status = STATUS_ACCESS_DENIED;
        Data->IoStatus.Information = 0;
        return FLT_PREOP_COMPLETE;
    }
    if (RtlEqualUnicodeString(&file->FileName, &old, TRUE)) {
        IoReplaceFileObjectName(file, fresh, sizeof(fresh) - sizeof(WCHAR));
        Data->IoStatus.Status = STATUS_REPARSE;
        Data->IoStatus.Information = IO_REPARSE;
        return FLT_PREOP_COMPLETE;
    }
    return FLT_PREOP_SUCCESS_WITH_CALLBACK;
}

static FLT_POSTOP_CALLBACK_STATUS PostCreate(PFLT_CALLBACK_DATA Data, PCFLT_RELATED_OBJECTS FltObjects, PVOID Context, FLT_POST_OPERATION_FLAGS Flags)
{
    UNREFERENCED_PARAMETER(FltObjects);
    UNREFERENCED_PARAMETER(Context);
    UNREFERENCED_PARAMETER(Flags);
    DbgPrint("Targets: opened 0x%08x, the target %s\n", Data->IoStatus.Status, Data->IoStatus.Information == FILE_EXISTS ? "exists" : "is new");
    return FLT_POSTOP_FINISHED_PROCESSING;
}

static FLT_PREOP_CALLBACK_STATUS PreSet(PFLT_CALLBACK_DATA Data, PCFLT_RELATED_OBJECTS FltObjects, PVOID *Context)
{
    PFILE_OBJECT folder = Data->Iopb->Parameters.SetFileInformation.ParentOfTarget;
    UNREFERENCED_PARAMETER(FltObjects);
    UNREFERENCED_PARAMETER(Context);
    if (folder != NULL)
        DbgPrint("Targets: class %d by %wZ\n", Data->Iopb->Parameters.SetFileInformation.FileInformationClass, &folder->FileName);
    else
        DbgPrint("Targets: class %d in its own folder\n", Data->Iopb->Parameters.SetFileInformation.FileInformationClass);
    return FLT_PREOP_SUCCESS_NO_CALLBACK;
}

static FLT_PREOP_CALLBACK_STATUS PreClose(PFLT_CALLBACK_DATA Data, PCFLT_RELATED_OBJECTS FltObjects, PVOID *Context)
{
    UNREFERENCED_PARAMETER(Context);
    DbgPrint("Targets: %s of %wZ\n", Data->Iopb->MajorFunction == IRP_MJ_CLEANUP ? "cleanup" : "close", &FltObjects->FileObject->FileName);
    return FLT_PREOP_SUCCESS_NO_CALLBACK;
}

static NTSTATUS Unload(FLT_FILTER_UNLOAD_FLAGS Flags)
{
    UNREFERENCED_PARAMETER(Flags);
    FltUnregisterFilter(gFilter);
    return STATUS_SUCCESS;
}

static CONST FLT_OPERATION_REGISTRATION Operations[] = {{IRP_MJ_CREATE, 0, PreCreate, PostCreate},
                                                        {IRP_MJ_SET_INFORMATION, 0, PreSet, NULL},
                                                        {IRP_MJ_CLEANUP, 0, PreClose, NULL},
                                                        {IRP_MJ_CLOSE, 0, PreClose, NULL},
                                                        {IRP_MJ_OPERATION_END}};
static CONST FLT_REGISTRATION Registration = {
    .Size = sizeof(FLT_REGISTRATION), .Version = FLT_REGISTRATION_VERSION, .OperationRegistration = Operations, .FilterUnloadCallback = Unload};

NTSTATUS DriverEntry(PDRIVER_OBJECT DriverObject, PUNICODE_STRING RegistryPath)
{
    NTSTATUS status;
    UNREFERENCED_PARAMETER(RegistryPath);
    status = FltRegisterFilter(DriverObject, &Registration, &gFilter);
    if (!NT_SUCCESS(status))
        return status;
    status = FltStartFiltering(gFilter);
    if (!NT_SUCCESS(status))
        FltUnregisterFilter(gFilter);
    return status;
}
