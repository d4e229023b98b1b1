/* A filter that asks by itself for what the manager hasn't: names, directories, volumes, attributes, security, control codes, a folder, a file by its number. It pends each rename, which a
 * work item lets go on. */
#include <fltKernel.h>

#define TAG 'rnwO'

PFLT_FILTER gFilter;

static BOOLEAN IsNamed(PFILE_OBJECT File, PCWSTR Name)
{
    UNICODE_STRING name;

    RtlInitUnicodeString(&name, Name);
    return RtlEqualUnicodeString(&File->FileName, &name, TRUE);
}

static NTSTATUS RenameTo(PCFLT_RELATED_OBJECTS FltObjects, PFILE_OBJECT File, PCWSTR Name)
{
    struct {
        FILE_RENAME_INFORMATION Info;
        WCHAR Rest[64];
    } rename = {0};

    rename.Info.ReplaceIfExists = FALSE;
    rename.Info.FileNameLength = (ULONG)(wcslen(Name) * sizeof(WCHAR));
    RtlCopyMemory(rename.Info.FileName, Name, rename.Info.FileNameLength);
    return FltSetInformationFile(FltObjects->Instance, File, &rename, sizeof(rename), FileRenameInformation);
}

static VOID ShowName(PCFLT_RELATED_OBJECTS FltObjects, PFILE_OBJECT File)
{
    union {
        FILE_NAME_INFORMATION Info;
        WCHAR Room[64];
    } name;
    ULONG length = 0;
    NTSTATUS status = FltQueryInformationFile(FltObjects->Instance, File, &name, sizeof(name), FileNameInformation, &length);

    DbgPrint("Owner: name 0x%08x, %u bytes, %.*ws\n", status, length, name.Info.FileNameLength / (ULONG)sizeof(WCHAR), name.Info.FileName);
}

static VOID ShowBeside(PCFLT_RELATED_OBJECTS FltObjects, PFILE_OBJECT File)
{
    struct {
        FILE_FULL_EA_INFORMATION Info;
        CHAR Rest[16];
    } ea = {0};
    FILE_FS_SIZE_INFORMATION size;
    IO_STATUS_BLOCK io;
    UCHAR room[64];
    ULONG length = 0;
    NTSTATUS status;

    ea.Info.EaNameLength = 2;
    ea.Info.EaValueLength = 3;
    RtlCopyMemory(ea.Info.EaName, "AB\0xyz", 6);
    DbgPrint("Owner: set attributes 0x%08x\n", FltSetEaFile(FltObjects->Instance, File, &ea, FIELD_OFFSET(FILE_FULL_EA_INFORMATION, EaName) + 6));
    status = FltQueryEaFile(FltObjects->Instance, File, room, sizeof(room), FALSE, NULL, 0, NULL, TRUE, &length);
    DbgPrint("Owner: attributes 0x%08x, %u bytes\n", status, length);
    status = FltQuerySecurityObject(FltObjects->Instance, File, OWNER_SECURITY_INFORMATION, room, 4, &length);
    DbgPrint("Owner: security 0x%08x, %u bytes\n", status, length);
    status = FltQuerySecurityObject(FltObjects->Instance, File, OWNER_SECURITY_INFORMATION, room, sizeof(room), &length);
    DbgPrint("Owner: security 0x%08x, %u bytes\n", status, length);
    DbgPrint("Owner: set security 0x%08x\n", FltSetSecurityObject(FltObjects->Instance, File, OWNER_SECURITY_INFORMATION, room));
    DbgPrint("Owner: reparse point 0x%08x\n", FltFsControlFile(FltObjects->Instance, File, FSCTL_GET_REPARSE_POINT, NULL, 0, room, sizeof(room), &length));
    DbgPrint("Owner: device control 0x%08x\n", FltDeviceIoControlFile(FltObjects->Instance, File, 0x70000, NULL, 0, NULL, 0, NULL));
    status = FltQueryVolumeInformationFile(FltObjects->Instance, File, &size, sizeof(size), FileFsSizeInformation, NULL);
    DbgPrint("Owner: volume 0x%08x, %I64d\n", status, size.TotalAllocationUnits.QuadPart);
    status = FltQueryVolumeInformation(FltObjects->Instance, &io, &size, sizeof(size), FileFsSizeInformation);
    DbgPrint("Owner: volume 0x%08x, %u bytes\n", status, (ULONG)io.Information);
}

static NTSTATUS Open(PCFLT_RELATED_OBJECTS FltObjects, PUNICODE_STRING Name, ULONG Options, PHANDLE Handle, PFILE_OBJECT *File)
{
    OBJECT_ATTRIBUTES attributes;
    IO_STATUS_BLOCK io;

    InitializeObjectAttributes(&attributes, Name, OBJ_KERNEL_HANDLE | OBJ_CASE_INSENSITIVE, NULL, NULL);
    return FltCreateFileEx(FltObjects->Filter, FltObjects->Instance, Handle, File, FILE_GENERIC_READ, &attributes, &io, NULL, FILE_ATTRIBUTE_NORMAL, FILE_SHARE_VALID_FLAGS, FILE_OPEN,
                           Options | FILE_SYNCHRONOUS_IO_NONALERT, NULL, 0, 0);
}

static VOID Close(HANDLE Handle, PFILE_OBJECT File)
{
    FltClose(Handle);
    ObDereferenceObject(File);
}

/* What lies in the root, entry by entry. */
static VOID ShowRoot(PCFLT_RELATED_OBJECTS FltObjects)
{
    union {
        FILE_ID_BOTH_DIR_INFORMATION Info;
        UCHAR Room[256];
    } entry;
    UNICODE_STRING root = RTL_CONSTANT_STRING(L"\\Device\\v0\\");
    HANDLE handle;
    PFILE_OBJECT file;
    NTSTATUS status = Open(FltObjects, &root, FILE_DIRECTORY_FILE, &handle, &file);
    BOOLEAN restart = TRUE;

    DbgPrint("Owner: root 0x%08x\n", status);
    while (NT_SUCCESS(status)) {
        status = FltQueryDirectoryFile(FltObjects->Instance, file, &entry, sizeof(entry), FileIdBothDirectoryInformation, TRUE, NULL, restart, NULL);
        if (NT_SUCCESS(status)) {
            DbgPrint("Owner: entry %.*ws, %I64d bytes\n", entry.Info.FileNameLength / (ULONG)sizeof(WCHAR), entry.Info.FileName, entry.Info.EndOfFile.QuadPart);
        }
        restart = FALSE;
    }
    DbgPrint("Owner: after the last 0x%08x\n", status);
    Close(handle, file);
}

static VOID ShowById(PCFLT_RELATED_OBJECTS FltObjects, PFILE_OBJECT File)
{
    FILE_INTERNAL_INFORMATION internal;
    UNICODE_STRING name = {sizeof(internal.IndexNumber), sizeof(internal.IndexNumber), (PWSTR)&internal.IndexNumber};
    HANDLE handle;
    PFILE_OBJECT file;
    NTSTATUS status = FltQueryInformationFile(FltObjects->Instance, File, &internal, sizeof(internal), FileInternalInformation, NULL);

    if (NT_SUCCESS(status)) {
        status = Open(FltObjects, &name, FILE_OPEN_BY_FILE_ID, &handle, &file);
    }
    DbgPrint("Owner: by its number 0x%08x\n", status);
    if (NT_SUCCESS(status)) {
        ShowName(FltObjects, file);
        Close(handle, file);
    }
}

static FLT_POSTOP_CALLBACK_STATUS PostCreate(PFLT_CALLBACK_DATA Data, PCFLT_RELATED_OBJECTS FltObjects, PVOID CompletionContext, FLT_POST_OPERATION_FLAGS Flags)
{
    PFILE_OBJECT file = FltObjects->FileObject;

    UNREFERENCED_PARAMETER(CompletionContext);
    if (FlagOn(Flags, FLTFL_POST_OPERATION_DRAINING) || !NT_SUCCESS(Data->IoStatus.Status)) {
        return FLT_POSTOP_FINISHED_PROCESSING;
    }
    if (IsNamed(file, L"\\mine")) {
        DbgPrint("Owner: rename 0x%08x\n", RenameTo(FltObjects, file, L"ours"));
        ShowName(FltObjects, file);
    } else if (IsNamed(file, L"\\beside")) {
        ShowBeside(FltObjects, file);
    } else if (IsNamed(file, L"\\root")) {
        ShowRoot(FltObjects);
        ShowById(FltObjects, file);
    }
    return FLT_POSTOP_FINISHED_PROCESSING;
}

static VOID LetGo(PFLT_GENERIC_WORKITEM WorkItem, PVOID FltObject, PVOID Context)
{
    UNREFERENCED_PARAMETER(FltObject);
    DbgPrint("Owner: a rename goes on\n");
    FltCompletePendedPreOperation(Context, FLT_PREOP_SUCCESS_NO_CALLBACK, NULL);
    FltFreeGenericWorkItem(WorkItem);
}

static FLT_PREOP_CALLBACK_STATUS PreSetInformation(PFLT_CALLBACK_DATA Data, PCFLT_RELATED_OBJECTS FltObjects, PVOID *CompletionContext)
{
    PFLT_GENERIC_WORKITEM item;
    FILE_INFORMATION_CLASS class = Data->Iopb->Parameters.SetFileInformation.FileInformationClass;

    UNREFERENCED_PARAMETER(CompletionContext);
    if (class != FileRenameInformation && class != FileRenameInformationEx) {
        return FLT_PREOP_SUCCESS_NO_CALLBACK;
    }
    item = FltAllocateGenericWorkItem();
    if (item == NULL) {
        return FLT_PREOP_SUCCESS_NO_CALLBACK;
    }
    if (!NT_SUCCESS(FltQueueGenericWorkItem(item, FltObjects->Instance, LetGo, DelayedWorkQueue, Data))) {
        FltFreeGenericWorkItem(item);
        return FLT_PREOP_SUCCESS_NO_CALLBACK;
    }
    return FLT_PREOP_PENDING;
}

static NTSTATUS QueryTeardown(PCFLT_RELATED_OBJECTS FltObjects, FLT_INSTANCE_QUERY_TEARDOWN_FLAGS Flags)
{
    UNREFERENCED_PARAMETER(FltObjects);
    UNREFERENCED_PARAMETER(Flags);
    return STATUS_SUCCESS;
}

static NTSTATUS Unload(FLT_FILTER_UNLOAD_FLAGS Flags)
{
    UNREFERENCED_PARAMETER(Flags);
    FltUnregisterFilter(gFilter);
    return STATUS_SUCCESS;
}

CONST FLT_OPERATION_REGISTRATION Callbacks[] = {{IRP_MJ_CREATE, 0, NULL, PostCreate}, {IRP_MJ_SET_INFORMATION, 0, PreSetInformation, NULL}, {IRP_MJ_OPERATION_END}};
CONST FLT_REGISTRATION Registration = {sizeof(FLT_REGISTRATION), FLT_REGISTRATION_VERSION, 0, NULL, Callbacks, Unload, NULL, QueryTeardown};

NTSTATUS DriverEntry(PDRIVER_OBJECT DriverObject, PUNICODE_STRING RegistryPath)
{
    NTSTATUS status = FltRegisterFilter(DriverObject, &Registration, &gFilter);

    UNREFERENCED_PARAMETER(RegistryPath);
    return NT_SUCCESS(status) ? FltStartFiltering(gFilter) : status;
}
