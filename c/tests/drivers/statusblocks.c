/* What is left in an IO_STATUS_BLOCK: a flush has the calls made, each with a block that has a mark of its own. A read at 7 is pended, and refused by a work item. */
#include <fltKernel.h>

static PFLT_FILTER filter;

static VOID Refuse(PFLT_DEFERRED_IO_WORKITEM Item, PFLT_CALLBACK_DATA Data, PVOID Context)
{
    UNREFERENCED_PARAMETER(Context);
    Data->IoStatus.Status = STATUS_ACCESS_DENIED;
    Data->IoStatus.Information = 0;
    FltCompletePendedPreOperation(Data, FLT_PREOP_COMPLETE, NULL);
    FltFreeDeferredIoWorkItem(Item);
}

static FLT_PREOP_CALLBACK_STATUS PreRead(PFLT_CALLBACK_DATA Data, PCFLT_RELATED_OBJECTS FltObjects, PVOID *CompletionContext)
{
    UNREFERENCED_PARAMETER(FltObjects);
    UNREFERENCED_PARAMETER(CompletionContext);
    if (Data->Iopb->Parameters.Read.ByteOffset.QuadPart != 7)
        return FLT_PREOP_SUCCESS_NO_CALLBACK;
    PFLT_DEFERRED_IO_WORKITEM item = FltAllocateDeferredIoWorkItem();
    if (item && NT_SUCCESS(FltQueueDeferredIoWorkItem(item, Data, Refuse, DelayedWorkQueue, NULL)))
        return FLT_PREOP_PENDING;
    if (item)
        FltFreeDeferredIoWorkItem(item);
    return FLT_PREOP_SUCCESS_NO_CALLBACK;
}

static IO_STATUS_BLOCK block;

/* Marks the block for the next call. */
static PIO_STATUS_BLOCK Marked(VOID)
{
    block.Status = 0x55;
    block.Information = 0x66;
    return &block;
}

static VOID Say(PCSTR What, NTSTATUS Status)
{
    DbgPrint("StatusBlocks: %s: %08x, block %08x %x\n", What, Status, block.Status, (ULONG)block.Information);
}

static NTSTATUS Open(PHANDLE File, PWSTR Path, ULONG Options)
{
    UNICODE_STRING name;
    OBJECT_ATTRIBUTES attributes;
    RtlInitUnicodeString(&name, Path);
    InitializeObjectAttributes(&attributes, &name, OBJ_KERNEL_HANDLE | OBJ_CASE_INSENSITIVE, NULL, NULL);
    return ZwOpenFile(File, FILE_READ_DATA | FILE_READ_ATTRIBUTES | SYNCHRONIZE, &attributes, Marked(), FILE_SHARE_VALID_FLAGS, FILE_SYNCHRONOUS_IO_NONALERT | Options);
}

static VOID Read(HANDLE File, LONGLONG Offset, PCSTR What)
{
    CHAR bytes[4];
    LARGE_INTEGER offset = {.QuadPart = Offset};
    Say(What, ZwReadFile(File, NULL, NULL, NULL, Marked(), bytes, sizeof bytes, &offset, NULL));
}

static VOID AskFile(VOID)
{
    HANDLE file;
    FILE_STANDARD_INFORMATION standard;
    Say("nothing", Open(&file, L"\\??\\C:\\none", 0));
    NTSTATUS status = Open(&file, L"\\??\\C:\\go", 0);
    Say("a file", status);
    if (!NT_SUCCESS(status))
        return;
    Read(file, 0, "a read");
    Read(file, 100, "a read past the end");
    Read(file, 7, "a read that pends");
    Say("a query", ZwQueryInformationFile(file, Marked(), &standard, sizeof standard, FileStandardInformation));
    Say("a short query", ZwQueryInformationFile(file, Marked(), &standard, 1, FileStandardInformation));
    Say("a code", ZwFsControlFile(file, NULL, NULL, NULL, Marked(), FSCTL_GET_REPARSE_POINT, NULL, 0, NULL, 0));
    ZwClose(file);
}

static VOID AskFolder(VOID)
{
    HANDLE folder;
    static UCHAR room[1024];
    UNICODE_STRING pattern = RTL_CONSTANT_STRING(L"zz*");
    if (!NT_SUCCESS(Open(&folder, L"\\??\\C:\\", FILE_DIRECTORY_FILE)))
        return;
    Say("no such file", ZwQueryDirectoryFile(folder, NULL, NULL, NULL, Marked(), room, sizeof room, FileDirectoryInformation, TRUE, &pattern, TRUE));
    ZwClose(folder);
    pattern.Buffer = L"g*";
    pattern.Length = pattern.MaximumLength = 2 * sizeof(WCHAR);
    if (!NT_SUCCESS(Open(&folder, L"\\??\\C:\\", FILE_DIRECTORY_FILE)))
        return;
    ZwQueryDirectoryFile(folder, NULL, NULL, NULL, Marked(), room, sizeof room, FileDirectoryInformation, TRUE, &pattern, TRUE);
    Say("no more files", ZwQueryDirectoryFile(folder, NULL, NULL, NULL, Marked(), room, sizeof room, FileDirectoryInformation, TRUE, NULL, FALSE));
    ZwClose(folder);
}

static FLT_PREOP_CALLBACK_STATUS PreFlush(PFLT_CALLBACK_DATA Data, PCFLT_RELATED_OBJECTS FltObjects, PVOID *CompletionContext)
{
    UNREFERENCED_PARAMETER(Data);
    UNREFERENCED_PARAMETER(FltObjects);
    UNREFERENCED_PARAMETER(CompletionContext);
    AskFile();
    AskFolder();
    return FLT_PREOP_SUCCESS_NO_CALLBACK;
}

static NTSTATUS Unload(FLT_FILTER_UNLOAD_FLAGS Flags)
{
    UNREFERENCED_PARAMETER(Flags);
    FltUnregisterFilter(filter);
    return STATUS_SUCCESS;
}

static const FLT_OPERATION_REGISTRATION operations[] = {
    {IRP_MJ_READ, 0, PreRead, NULL, NULL}, {IRP_MJ_FLUSH_BUFFERS, 0, PreFlush, NULL, NULL}, {IRP_MJ_OPERATION_END, 0, NULL, NULL, NULL}};
static const FLT_REGISTRATION registration = {.Size = sizeof registration, .Version = FLT_REGISTRATION_VERSION, .OperationRegistration = operations, .FilterUnloadCallback = Unload};

NTSTATUS DriverEntry(PDRIVER_OBJECT DriverObject, PUNICODE_STRING RegistryPath)
{
    UNREFERENCED_PARAMETER(RegistryPath);
    NTSTATUS status = FltRegisterFilter(DriverObject, &registration, &filter);
    return NT_SUCCESS(status) ? FltStartFiltering(filter) : status;
}
