/* A filter that asks for the names of each create, before it and behind it, in each format; and where each rename leads to. */
#include <fltKernel.h>

static PFLT_FILTER gFilter;

static VOID Ask(_In_ PCSTR When, _In_ PFLT_CALLBACK_DATA Data, _In_ FLT_FILE_NAME_OPTIONS Options)
{
    PFLT_FILE_NAME_INFORMATION name;
    NTSTATUS status = FltGetFileNameInformation(Data, Options, &name);

    if (!NT_SUCCESS(status)) {
        DbgPrint("%s %u: %08x\n", When, FltGetFileNameFormat(Options), status);
        return;
    }
    FltParseFileNameInformation(name);
    DbgPrint("%s %u: %wZ, its parent %wZ\n", When, FltGetFileNameFormat(Options), &name->Name, &name->ParentDir);
    FltReleaseFileNameInformation(name);
}

static FLT_PREOP_CALLBACK_STATUS PreCreate(_Inout_ PFLT_CALLBACK_DATA Data, _In_ PCFLT_RELATED_OBJECTS FltObjects, _Flt_CompletionContext_Outptr_ PVOID *CompletionContext)
{
    UNREFERENCED_PARAMETER(FltObjects);
    UNREFERENCED_PARAMETER(CompletionContext);
    Ask("before", Data, FLT_FILE_NAME_OPENED | FLT_FILE_NAME_QUERY_DEFAULT);
    Ask("before", Data, FLT_FILE_NAME_NORMALIZED | FLT_FILE_NAME_QUERY_DEFAULT);
    return FLT_PREOP_SUCCESS_WITH_CALLBACK;
}

static FLT_POSTOP_CALLBACK_STATUS PostCreate(_Inout_ PFLT_CALLBACK_DATA Data, _In_ PCFLT_RELATED_OBJECTS FltObjects, _In_opt_ PVOID CompletionContext, _In_ FLT_POST_OPERATION_FLAGS Flags)
{
    PFLT_FILE_NAME_INFORMATION name;

    UNREFERENCED_PARAMETER(CompletionContext);
    UNREFERENCED_PARAMETER(Flags);
    Ask("behind", Data, FLT_FILE_NAME_NORMALIZED | FLT_FILE_NAME_QUERY_DEFAULT);
    if (NT_SUCCESS(FltGetFileNameInformationUnsafe(FltObjects->FileObject, FltObjects->Instance, FLT_FILE_NAME_OPENED | FLT_FILE_NAME_QUERY_DEFAULT, &name))) {
        DbgPrint("of the file object: %wZ\n", &name->Name);
        FltReleaseFileNameInformation(name);
    }
    return FLT_POSTOP_FINISHED_PROCESSING;
}

static FLT_PREOP_CALLBACK_STATUS PreRename(_Inout_ PFLT_CALLBACK_DATA Data, _In_ PCFLT_RELATED_OBJECTS FltObjects, _Flt_CompletionContext_Outptr_ PVOID *CompletionContext)
{
    static const FLT_FILE_NAME_OPTIONS formats[] = {FLT_FILE_NAME_OPENED, FLT_FILE_NAME_NORMALIZED};
    PFILE_RENAME_INFORMATION said = Data->Iopb->Parameters.SetFileInformation.InfoBuffer;
    PFLT_FILE_NAME_INFORMATION name;
    NTSTATUS status;
    ULONG at;

    UNREFERENCED_PARAMETER(CompletionContext);
    if (Data->Iopb->Parameters.SetFileInformation.FileInformationClass != FileRenameInformation) {
        return FLT_PREOP_SUCCESS_NO_CALLBACK;
    }
    for (at = 0; at < RTL_NUMBER_OF(formats); at++) {
        status = FltGetDestinationFileNameInformation(FltObjects->Instance, FltObjects->FileObject, said->RootDirectory, said->FileName, said->FileNameLength, formats[at] | FLT_FILE_NAME_QUERY_DEFAULT, &name);
        if (NT_SUCCESS(status)) {
            DbgPrint("leads to %u: %wZ, by %.*ws%s\n", formats[at], &name->Name, said->FileNameLength / sizeof(WCHAR), said->FileName, said->RootDirectory != NULL ? " below a directory" : "");
            FltReleaseFileNameInformation(name);
        } else {
            DbgPrint("leads to %u: %08x\n", formats[at], status);
        }
    }
    return FLT_PREOP_SUCCESS_NO_CALLBACK;
}

static NTSTATUS Unload(_In_ FLT_FILTER_UNLOAD_FLAGS Flags)
{
    UNREFERENCED_PARAMETER(Flags);
    FltUnregisterFilter(gFilter);
    return STATUS_SUCCESS;
}

static const FLT_OPERATION_REGISTRATION Callbacks[] = {{IRP_MJ_CREATE, 0, PreCreate, PostCreate}, {IRP_MJ_SET_INFORMATION, 0, PreRename, NULL}, {IRP_MJ_OPERATION_END}};
static const FLT_REGISTRATION Registration = {sizeof(FLT_REGISTRATION), FLT_REGISTRATION_VERSION, 0, NULL, Callbacks, Unload};

NTSTATUS DriverEntry(_In_ PDRIVER_OBJECT DriverObject, _In_ PUNICODE_STRING RegistryPath)
{
    NTSTATUS status = FltRegisterFilter(DriverObject, &Registration, &gFilter);

    UNREFERENCED_PARAMETER(RegistryPath);
    if (NT_SUCCESS(status)) {
        status = FltStartFiltering(gFilter);
        if (!NT_SUCCESS(status)) {
            FltUnregisterFilter(gFilter);
        }
    }
    return status;
}
