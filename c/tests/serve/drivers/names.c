/* Hears of renames: one to a name that begins with `no` is refused, if it is asked for as POSIX has it and its folder was opened before. */
#include <fltKernel.h>

PFLT_FILTER gFilterHandle;

static BOOLEAN IsRefused(_In_ PFLT_CALLBACK_DATA Data, _In_ PCFLT_RELATED_OBJECTS FltObjects)
{
    FILE_RENAME_INFORMATION *said = Data->Iopb->Parameters.SetFileInformation.InfoBuffer;
    PFLT_FILE_NAME_INFORMATION name;
    BOOLEAN refused = FALSE;

    if (!FlagOn(said->Flags, FILE_RENAME_POSIX_SEMANTICS) || Data->Iopb->Parameters.SetFileInformation.ParentOfTarget == NULL) {
        return FALSE;
    }
    if (!NT_SUCCESS(FltGetDestinationFileNameInformation(FltObjects->Instance, FltObjects->FileObject, said->RootDirectory, said->FileName, said->FileNameLength,
                                                         FLT_FILE_NAME_NORMALIZED | FLT_FILE_NAME_QUERY_DEFAULT, &name))) {
        return FALSE;
    }
    if (NT_SUCCESS(FltParseFileNameInformation(name)) && name->FinalComponent.Length >= 2 * sizeof(WCHAR)) {
        refused = name->FinalComponent.Buffer[0] == L'n' && name->FinalComponent.Buffer[1] == L'o';
    }
    FltReleaseFileNameInformation(name);
    return refused;
}

static FLT_PREOP_CALLBACK_STATUS PreSet(_Inout_ PFLT_CALLBACK_DATA Data, _In_ PCFLT_RELATED_OBJECTS FltObjects, _Flt_CompletionContext_Outptr_ PVOID *CompletionContext)
{
    UNREFERENCED_PARAMETER(CompletionContext);
    if (Data->Iopb->Parameters.SetFileInformation.FileInformationClass != FileRenameInformationEx || !IsRefused(Data, FltObjects)) {
        return FLT_PREOP_SUCCESS_NO_CALLBACK;
    }
    Data->IoStatus.Status = STATUS_ACCESS_DENIED;
    Data->IoStatus.Information = 0;
    return FLT_PREOP_COMPLETE;
}

static NTSTATUS InstanceQueryTeardown(_In_ PCFLT_RELATED_OBJECTS FltObjects, _In_ FLT_INSTANCE_QUERY_TEARDOWN_FLAGS Flags)
{
    UNREFERENCED_PARAMETER(FltObjects);
    UNREFERENCED_PARAMETER(Flags);
    return STATUS_SUCCESS;
}

static NTSTATUS Unload(_In_ FLT_FILTER_UNLOAD_FLAGS Flags)
{
    UNREFERENCED_PARAMETER(Flags);
    FltUnregisterFilter(gFilterHandle);
    return STATUS_SUCCESS;
}

CONST FLT_OPERATION_REGISTRATION Callbacks[] = {{IRP_MJ_SET_INFORMATION, 0, PreSet, NULL}, {IRP_MJ_OPERATION_END}};

CONST FLT_REGISTRATION FilterRegistration = {sizeof(FLT_REGISTRATION), FLT_REGISTRATION_VERSION, 0, NULL, Callbacks, Unload, NULL, InstanceQueryTeardown, NULL, NULL};

NTSTATUS DriverEntry(_In_ PDRIVER_OBJECT DriverObject, _In_ PUNICODE_STRING RegistryPath)
{
    NTSTATUS status = FltRegisterFilter(DriverObject, &FilterRegistration, &gFilterHandle);

    UNREFERENCED_PARAMETER(RegistryPath);
    return NT_SUCCESS(status) ? FltStartFiltering(gFilterHandle) : status;
}
