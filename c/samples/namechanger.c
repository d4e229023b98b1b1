/* A name changer: what is seen as \alias.. is \real.. below. Creates are led there in place; whoever asks above for a name gets that of the alias; a listing of the root and a query of a name show it. */
#include <fltKernel.h>

#define CHANGER_LETTERS 5
static const WCHAR gSeen[] = L"\\alias";
static const WCHAR gReal[] = L"\\real_";
static PFLT_FILTER gFilterHandle;

#define BYTES (6 * sizeof(WCHAR)) /* both names have six letters, with the backslash */

/* Whether that name is below the other, or is it: where its part begins behind the volume. */
static BOOLEAN IsBelow(_In_ PCUNICODE_STRING Name, _In_ USHORT Volume, _In_reads_(6) PCWSTR Part)
{
    UNICODE_STRING part = {BYTES, BYTES, (PWSTR)Part}, rest;

    if (Name->Length < Volume + BYTES) {
        return FALSE;
    }
    rest.Buffer = Name->Buffer + Volume / sizeof(WCHAR);
    rest.Length = rest.MaximumLength = BYTES;
    return RtlEqualUnicodeString(&rest, &part, TRUE) && (Name->Length == Volume + BYTES || rest.Buffer[6] == L'\\' || rest.Buffer[6] == L':');
}

/* ---- Creates: the file object's name is another one from here on, and the create goes on. */
static FLT_PREOP_CALLBACK_STATUS ChangerPreCreate(_Inout_ PFLT_CALLBACK_DATA Data, _In_ PCFLT_RELATED_OBJECTS FltObjects, _Flt_CompletionContext_Outptr_ PVOID *CompletionContext)
{
    PUNICODE_STRING name = &FltObjects->FileObject->FileName;
    PWCHAR changed;
    NTSTATUS status;

    UNREFERENCED_PARAMETER(CompletionContext);
    PAGED_CODE();
    if (FlagOn(Data->Iopb->Parameters.Create.Options, FILE_OPEN_BY_FILE_ID) || !IsBelow(name, 0, gSeen)) {
        return FLT_PREOP_SUCCESS_NO_CALLBACK;
    }
    changed = ExAllocatePoolWithTag(PagedPool, name->Length, 'gnhC');
    if (changed == NULL) {
        status = STATUS_INSUFFICIENT_RESOURCES;
    } else {
        RtlCopyMemory(changed, name->Buffer, name->Length);
        RtlCopyMemory(changed, gReal, BYTES);
        status = IoReplaceFileObjectName(FltObjects->FileObject, changed, name->Length);
        ExFreePoolWithTag(changed, 'gnhC');
    }
    if (!NT_SUCCESS(status)) {
        Data->IoStatus.Status = status;
        Data->IoStatus.Information = 0;
        return FLT_PREOP_COMPLETE;
    }
    return FLT_PREOP_SUCCESS_NO_CALLBACK;
}

/* ---- The provider: the name that is below, with the alias in it. */
static NTSTATUS ChangerGenerate(_In_ PFLT_INSTANCE Instance, _In_ PFILE_OBJECT FileObject, _In_opt_ PFLT_CALLBACK_DATA CallbackData, _In_ FLT_FILE_NAME_OPTIONS NameOptions,
                                _Out_ PBOOLEAN CacheFileNameInformation, _Inout_ PFLT_NAME_CONTROL FileName)
{
    PFLT_FILE_NAME_INFORMATION lower;
    NTSTATUS status;

    PAGED_CODE();
    *CacheFileNameInformation = TRUE;
    if (CallbackData != NULL) {
        status = FltGetFileNameInformation(CallbackData, NameOptions, &lower);
    } else {
        status = FltGetFileNameInformationUnsafe(FileObject, Instance, NameOptions, &lower);
    }
    if (!NT_SUCCESS(status)) {
        return status;
    }
    status = FltCheckAndGrowNameControl(FileName, lower->Name.Length);
    if (NT_SUCCESS(status)) {
        RtlCopyUnicodeString(&FileName->Name, &lower->Name);
        if (IsBelow(&FileName->Name, lower->Volume.Length, gReal)) {
            RtlCopyMemory((PUCHAR)FileName->Name.Buffer + lower->Volume.Length, gSeen, BYTES);
        }
    }
    FltReleaseFileNameInformation(lower);
    return status;
}

/* A part of a name as it is spelt below. */
static NTSTATUS ChangerNormalize(_In_ PFLT_INSTANCE Instance, _In_ PFILE_OBJECT FileObject, _In_ PCUNICODE_STRING ParentDirectory, _In_ USHORT VolumeNameLength, _In_ PCUNICODE_STRING Component,
                                 _Out_writes_bytes_(ExpandComponentNameLength) PFILE_NAMES_INFORMATION ExpandComponentName, _In_ ULONG ExpandComponentNameLength,
                                 _In_ FLT_NORMALIZE_NAME_FLAGS Flags, _Inout_ PVOID *NormalizationContext)
{
    WCHAR room[128];
    UNICODE_STRING parent = {0, sizeof(room), room}, component = *Component;
    OBJECT_ATTRIBUTES attributes;
    IO_STATUS_BLOCK io;
    PFILE_OBJECT object;
    HANDLE directory;
    NTSTATUS status;

    UNREFERENCED_PARAMETER(FileObject);
    UNREFERENCED_PARAMETER(NormalizationContext);
    PAGED_CODE();
    RtlCopyUnicodeString(&parent, ParentDirectory);
    if (IsBelow(&parent, VolumeNameLength, gSeen)) {
        RtlCopyMemory((PUCHAR)room + VolumeNameLength, gReal, BYTES);
    }
    InitializeObjectAttributes(&attributes, &parent, OBJ_KERNEL_HANDLE | (FlagOn(Flags, FLTFL_NORMALIZE_NAME_CASE_SENSITIVE) ? 0 : OBJ_CASE_INSENSITIVE), NULL, NULL);
    status = FltCreateFileEx(gFilterHandle, Instance, &directory, &object, FILE_LIST_DIRECTORY | SYNCHRONIZE, &attributes, &io, NULL, FILE_ATTRIBUTE_NORMAL, FILE_SHARE_VALID_FLAGS, FILE_OPEN,
                             FILE_DIRECTORY_FILE | FILE_SYNCHRONOUS_IO_NONALERT, NULL, 0, IO_IGNORE_SHARE_ACCESS_CHECK);
    if (!NT_SUCCESS(status)) {
        return status;
    }
    status = FltQueryDirectoryFile(Instance, object, ExpandComponentName, ExpandComponentNameLength, FileNamesInformation, TRUE, &component, TRUE, NULL);
    ObDereferenceObject(object);
    FltClose(directory);
    return status;
}

/* ---- What the file system says: the name of a file, and the entries of the root, in the caller's own buffer. */
static FLT_POSTOP_CALLBACK_STATUS ChangerPostQuery(_Inout_ PFLT_CALLBACK_DATA Data, _In_ PCFLT_RELATED_OBJECTS FltObjects, _In_opt_ PVOID CompletionContext, _In_ FLT_POST_OPERATION_FLAGS Flags)
{
    PFILE_NAME_INFORMATION said = Data->Iopb->Parameters.QueryFileInformation.InfoBuffer;
    UNICODE_STRING name;

    UNREFERENCED_PARAMETER(FltObjects);
    UNREFERENCED_PARAMETER(CompletionContext);
    if (!FlagOn(Flags, FLTFL_POST_OPERATION_DRAINING) && NT_SUCCESS(Data->IoStatus.Status) && Data->Iopb->Parameters.QueryFileInformation.FileInformationClass == FileNameInformation) {
        name.Length = name.MaximumLength = (USHORT)said->FileNameLength;
        name.Buffer = said->FileName;
        if (IsBelow(&name, 0, gReal)) {
            RtlCopyMemory(said->FileName, gSeen, BYTES);
        }
    }
    return FLT_POSTOP_FINISHED_PROCESSING;
}

static FLT_PREOP_CALLBACK_STATUS ChangerPreDirectory(_Inout_ PFLT_CALLBACK_DATA Data, _In_ PCFLT_RELATED_OBJECTS FltObjects, _Flt_CompletionContext_Outptr_ PVOID *CompletionContext)
{
    UNREFERENCED_PARAMETER(CompletionContext);
    if (Data->Iopb->MinorFunction != IRP_MN_QUERY_DIRECTORY || Data->Iopb->Parameters.DirectoryControl.QueryDirectory.FileInformationClass != FileNamesInformation ||
        FltObjects->FileObject->FileName.Length > sizeof(WCHAR)) {
        return FLT_PREOP_SUCCESS_NO_CALLBACK;
    }
    return FLT_PREOP_SYNCHRONIZE;
}

static VOID ChangerChangeEntries(_Inout_ PUCHAR At)
{
    UNICODE_STRING real = {BYTES - sizeof(WCHAR), BYTES - sizeof(WCHAR), (PWSTR)gReal + 1}, name;
    PFILE_NAMES_INFORMATION entry;

    do {
        entry = (PFILE_NAMES_INFORMATION)At;
        name.Length = name.MaximumLength = (USHORT)entry->FileNameLength;
        name.Buffer = entry->FileName;
        if (RtlEqualUnicodeString(&name, &real, TRUE)) {
            RtlCopyMemory(entry->FileName, gSeen + 1, CHANGER_LETTERS * sizeof(WCHAR));
        }
        At += entry->NextEntryOffset;
    } while (entry->NextEntryOffset != 0);
}

/* The program may free its buffer meanwhile. */
static FLT_POSTOP_CALLBACK_STATUS ChangerPostDirectory(_Inout_ PFLT_CALLBACK_DATA Data, _In_ PCFLT_RELATED_OBJECTS FltObjects, _In_opt_ PVOID CompletionContext, _In_ FLT_POST_OPERATION_FLAGS Flags)
{
    UNREFERENCED_PARAMETER(FltObjects);
    UNREFERENCED_PARAMETER(CompletionContext);
    if (FlagOn(Flags, FLTFL_POST_OPERATION_DRAINING) || !NT_SUCCESS(Data->IoStatus.Status)) {
        return FLT_POSTOP_FINISHED_PROCESSING;
    }
    try {
        ChangerChangeEntries(Data->Iopb->Parameters.DirectoryControl.QueryDirectory.DirectoryBuffer);
    } except (EXCEPTION_EXECUTE_HANDLER) {
        Data->IoStatus.Status = GetExceptionCode();
        Data->IoStatus.Information = 0;
    }
    return FLT_POSTOP_FINISHED_PROCESSING;
}

static NTSTATUS ChangerQueryTeardown(_In_ PCFLT_RELATED_OBJECTS FltObjects, _In_ FLT_INSTANCE_QUERY_TEARDOWN_FLAGS Flags)
{
    UNREFERENCED_PARAMETER(FltObjects);
    UNREFERENCED_PARAMETER(Flags);
    return STATUS_SUCCESS;
}

static NTSTATUS ChangerUnload(_In_ FLT_FILTER_UNLOAD_FLAGS Flags)
{
    UNREFERENCED_PARAMETER(Flags);
    FltUnregisterFilter(gFilterHandle);
    return STATUS_SUCCESS;
}

static CONST FLT_OPERATION_REGISTRATION Operations[] = {{IRP_MJ_CREATE, 0, ChangerPreCreate, NULL},
                                                        {IRP_MJ_QUERY_INFORMATION, 0, NULL, ChangerPostQuery},
                                                        {IRP_MJ_DIRECTORY_CONTROL, 0, ChangerPreDirectory, ChangerPostDirectory},
                                                        {IRP_MJ_OPERATION_END}};
static CONST FLT_REGISTRATION Registration = {.Size = sizeof(FLT_REGISTRATION),
                                              .Version = FLT_REGISTRATION_VERSION,
                                              .OperationRegistration = Operations,
                                              .FilterUnloadCallback = ChangerUnload,
                                              .InstanceQueryTeardownCallback = ChangerQueryTeardown,
                                              .GenerateFileNameCallback = ChangerGenerate,
                                              .NormalizeNameComponentExCallback = ChangerNormalize};

NTSTATUS DriverEntry(_In_ PDRIVER_OBJECT DriverObject, _In_ PUNICODE_STRING RegistryPath)
{
    NTSTATUS status;

    UNREFERENCED_PARAMETER(RegistryPath);
    status = FltRegisterFilter(DriverObject, &Registration, &gFilterHandle);
    if (NT_SUCCESS(status)) {
        status = FltStartFiltering(gFilterHandle);
        if (!NT_SUCCESS(status)) {
            FltUnregisterFilter(gFilterHandle);
        }
    }
    return status;
}
