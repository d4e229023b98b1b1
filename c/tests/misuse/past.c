/* What a program gave, and names, read past their ends: each request takes one of them for what it isn't. */
#include <fltKernel.h>

typedef struct _COMMAND {
    ULONG Code, Flags;
    ULONGLONG Offset;
} COMMAND, *PCOMMAND;

static PFLT_FILTER gFilter;
static volatile ULONGLONG gSum;

/* The new name as if a null ended it, and the end of a file as if it were a rename. */
static FLT_PREOP_CALLBACK_STATUS PreSet(PFLT_CALLBACK_DATA Data, PCFLT_RELATED_OBJECTS FltObjects, PVOID *CompletionContext)
{
    PFILE_RENAME_INFORMATION rename = Data->Iopb->Parameters.SetFileInformation.InfoBuffer;
    ULONG at;

    UNREFERENCED_PARAMETER(FltObjects);
    UNREFERENCED_PARAMETER(CompletionContext);
    if (Data->Iopb->Parameters.SetFileInformation.FileInformationClass == FileRenameInformation) {
        for (at = 0; rename->FileName[at] != 0; at++) {
            gSum++;
        }
    } else {
        gSum += rename->FileNameLength;
    }
    return FLT_PREOP_SUCCESS_NO_CALLBACK;
}

/* InputBufferLength isn't looked at. */
static FLT_PREOP_CALLBACK_STATUS PreControl(PFLT_CALLBACK_DATA Data, PCFLT_RELATED_OBJECTS FltObjects, PVOID *CompletionContext)
{
    PCOMMAND command = Data->Iopb->Parameters.FileSystemControl.Buffered.SystemBuffer;

    UNREFERENCED_PARAMETER(FltObjects);
    UNREFERENCED_PARAMETER(CompletionContext);
    gSum += command->Offset;
    return FLT_PREOP_SUCCESS_NO_CALLBACK;
}

/* A letter more than the name has is copied. */
static FLT_PREOP_CALLBACK_STATUS PreFlush(PFLT_CALLBACK_DATA Data, PCFLT_RELATED_OBJECTS FltObjects, PVOID *CompletionContext)
{
    WCHAR copy[128];
    PFLT_FILE_NAME_INFORMATION name;

    UNREFERENCED_PARAMETER(FltObjects);
    UNREFERENCED_PARAMETER(CompletionContext);
    if (NT_SUCCESS(FltGetFileNameInformation(Data, FLT_FILE_NAME_NORMALIZED | FLT_FILE_NAME_QUERY_DEFAULT, &name))) {
        RtlCopyMemory(copy, name->Name.Buffer, name->Name.Length + sizeof(WCHAR));
        gSum += copy[0];
        FltReleaseFileNameInformation(name);
    }
    return FLT_PREOP_SUCCESS_NO_CALLBACK;
}

/* One byte more than there is. */
static FLT_PREOP_CALLBACK_STATUS PreWrite(PFLT_CALLBACK_DATA Data, PCFLT_RELATED_OBJECTS FltObjects, PVOID *CompletionContext)
{
    PUCHAR bytes = Data->Iopb->Parameters.Write.WriteBuffer;
    ULONG at;

    UNREFERENCED_PARAMETER(FltObjects);
    UNREFERENCED_PARAMETER(CompletionContext);
    for (at = 0; at <= Data->Iopb->Parameters.Write.Length; at++) {
        __try { gSum += bytes[at]; } __except (EXCEPTION_EXECUTE_HANDLER) { }
    }
    return FLT_PREOP_SUCCESS_NO_CALLBACK;
}

static NTSTATUS Unload(FLT_FILTER_UNLOAD_FLAGS Flags)
{
    UNREFERENCED_PARAMETER(Flags);
    FltUnregisterFilter(gFilter);
    return STATUS_SUCCESS;
}

static CONST FLT_OPERATION_REGISTRATION Callbacks[] = {
    {IRP_MJ_SET_INFORMATION, 0, PreSet}, {IRP_MJ_FILE_SYSTEM_CONTROL, 0, PreControl}, {IRP_MJ_FLUSH_BUFFERS, 0, PreFlush}, {IRP_MJ_WRITE, 0, PreWrite}, {IRP_MJ_OPERATION_END}};
static CONST FLT_REGISTRATION Registration = {sizeof(FLT_REGISTRATION), FLT_REGISTRATION_VERSION, 0, NULL, Callbacks, Unload};

NTSTATUS DriverEntry(PDRIVER_OBJECT DriverObject, PUNICODE_STRING RegistryPath)
{
    NTSTATUS status;

    UNREFERENCED_PARAMETER(RegistryPath);
    status = FltRegisterFilter(DriverObject, &Registration, &gFilter);
    return NT_SUCCESS(status) ? FltStartFiltering(gFilter) : status;
}
