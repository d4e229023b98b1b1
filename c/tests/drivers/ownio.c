/* A filter that reads, writes, asks and opens by itself: a file of its own below itself, reads in a postoperation of a create and before a cleanup, an open that it cancels, and files
 * from the top of the stack in a work item. */
#include <fltKernel.h>

#define TAG 'woiO'

PFLT_FILTER gFilter;
HANDLE gOwn;
PFILE_OBJECT gOwnObject;

static BOOLEAN IsNamed(PFILE_OBJECT File, PCWSTR Name)
{
    UNICODE_STRING name;
    RtlInitUnicodeString(&name, Name);
    return RtlEqualUnicodeString(&File->FileName, &name, TRUE);
}

static VOID Show(PCSTR When, PFLT_INSTANCE Instance, PFILE_OBJECT File)
{
    CHAR bytes[17] = {0};
    LARGE_INTEGER offset = {.QuadPart = 0};
    ULONG done = 77;
    FILE_STANDARD_INFORMATION standard;
    NTSTATUS read = FltReadFile(Instance, File, &offset, 16, bytes, FLTFL_IO_OPERATION_DO_NOT_UPDATE_BYTE_OFFSET, &done, NULL, NULL);
    NTSTATUS asked = FltQueryInformationFile(Instance, File, &standard, sizeof(standard), FileStandardInformation, NULL);
    DbgPrint("OwnIo: %s %wZ: read 0x%08x, %u bytes \"%s\"; size 0x%08x, %I64d\n", When, &File->FileName, read, done, bytes, asked,
             NT_SUCCESS(asked) ? standard.EndOfFile.QuadPart : -1);
}

/* ---- The file of its own. */
static NTSTATUS OpenOwn(PCFLT_RELATED_OBJECTS FltObjects)
{
    static const CHAR text[] = "opened;";
    UNICODE_STRING name = RTL_CONSTANT_STRING(L"\\Device\\v0\\own\\log");
    OBJECT_ATTRIBUTES attributes;
    IO_STATUS_BLOCK io;
    LARGE_INTEGER offset = {.QuadPart = 0};
    ULONG done;
    InitializeObjectAttributes(&attributes, &name, OBJ_KERNEL_HANDLE | OBJ_CASE_INSENSITIVE, NULL, NULL);
    NTSTATUS status = FltCreateFileEx(FltObjects->Filter, FltObjects->Instance, &gOwn, &gOwnObject, FILE_GENERIC_READ | FILE_GENERIC_WRITE, &attributes, &io, NULL,
                                      FILE_ATTRIBUTE_HIDDEN, FILE_SHARE_READ, FILE_OVERWRITE_IF, FILE_NON_DIRECTORY_FILE | FILE_SYNCHRONOUS_IO_NONALERT, NULL, 0, 0);
    if (!NT_SUCCESS(status))
        return status;
    DbgPrint("OwnIo: own file, Information %u\n", (ULONG)io.Information);
    return FltWriteFile(FltObjects->Instance, gOwnObject, &offset, sizeof(text) - 1, (PVOID)text, 0, &done, NULL, NULL);
}

static VOID CloseOwn(PFLT_INSTANCE Instance)
{
    if (!gOwn)
        return;
    DbgPrint("OwnIo: own file is at %I64d\n", gOwnObject->CurrentByteOffset.QuadPart);
    Show("own", Instance, gOwnObject);
    FltClose(gOwn);
    ObDereferenceObject(gOwnObject);
    gOwn = NULL;
    gOwnObject = NULL;
}

/* ---- From the top. */
static VOID Work(PFLT_GENERIC_WORKITEM Item, PVOID Object, PVOID Context)
{
    UNICODE_STRING name = RTL_CONSTANT_STRING(L"\\??\\C:\\top");
    OBJECT_ATTRIBUTES attributes;
    IO_STATUS_BLOCK io;
    HANDLE file;
    CHAR bytes[8] = {0};
    LARGE_INTEGER offset = {.QuadPart = 1};
    UNREFERENCED_PARAMETER(Object);
    UNREFERENCED_PARAMETER(Context);
    InitializeObjectAttributes(&attributes, &name, OBJ_KERNEL_HANDLE, NULL, NULL);
    NTSTATUS status = ZwCreateFile(&file, GENERIC_READ | GENERIC_WRITE, &attributes, &io, NULL, FILE_ATTRIBUTE_NORMAL, 0, FILE_CREATE,
                                   FILE_SYNCHRONOUS_IO_NONALERT, NULL, 0);
    if (NT_SUCCESS(status)) {
        ZwWriteFile(file, NULL, NULL, NULL, &io, "abcd", 4, NULL, NULL);
        status = ZwReadFile(file, NULL, NULL, NULL, &io, bytes, 7, &offset, NULL);
        DbgPrint("OwnIo: top: read 0x%08x, %u bytes \"%s\"\n", status, (ULONG)io.Information, bytes);
        ZwClose(file);
        status = ZwDeleteFile(&attributes);
        DbgPrint("OwnIo: top: deleted 0x%08x, and again 0x%08x\n", status, ZwDeleteFile(&attributes));
    }
    FltFreeGenericWorkItem(Item);
}

/* ---- Callbacks. */
static FLT_POSTOP_CALLBACK_STATUS PostCreate(PFLT_CALLBACK_DATA Data, PCFLT_RELATED_OBJECTS FltObjects, PVOID Context, FLT_POST_OPERATION_FLAGS Flags)
{
    UNREFERENCED_PARAMETER(Context);
    if ((Flags & FLTFL_POST_OPERATION_DRAINING) || !NT_SUCCESS(Data->IoStatus.Status))
        return FLT_POSTOP_FINISHED_PROCESSING;
    Show("opened", FltObjects->Instance, FltObjects->FileObject);
    if (IsNamed(FltObjects->FileObject, L"\\cancel")) {
        FltCancelFileOpen(FltObjects->Instance, FltObjects->FileObject);
        Data->IoStatus.Status = STATUS_VIRUS_INFECTED;
        Data->IoStatus.Information = 0;
    }
    return FLT_POSTOP_FINISHED_PROCESSING;
}

static FLT_PREOP_CALLBACK_STATUS PreCleanup(PFLT_CALLBACK_DATA Data, PCFLT_RELATED_OBJECTS FltObjects, PVOID *Context)
{
    UNREFERENCED_PARAMETER(Data);
    UNREFERENCED_PARAMETER(Context);
    Show("before cleanup", FltObjects->Instance, FltObjects->FileObject);
    return FLT_PREOP_SUCCESS_WITH_CALLBACK;
}

static FLT_POSTOP_CALLBACK_STATUS PostCleanup(PFLT_CALLBACK_DATA Data, PCFLT_RELATED_OBJECTS FltObjects, PVOID Context, FLT_POST_OPERATION_FLAGS Flags)
{
    UNREFERENCED_PARAMETER(Data);
    UNREFERENCED_PARAMETER(Context);
    UNREFERENCED_PARAMETER(Flags);
    Show("behind cleanup", FltObjects->Instance, FltObjects->FileObject);
    return FLT_POSTOP_FINISHED_PROCESSING;
}

static FLT_PREOP_CALLBACK_STATUS PreFlush(PFLT_CALLBACK_DATA Data, PCFLT_RELATED_OBJECTS FltObjects, PVOID *Context)
{
    PFLT_GENERIC_WORKITEM item = FltAllocateGenericWorkItem();
    UNREFERENCED_PARAMETER(Data);
    UNREFERENCED_PARAMETER(Context);
    if (item && !NT_SUCCESS(FltQueueGenericWorkItem(item, FltObjects->Instance, Work, DelayedWorkQueue, NULL)))
        FltFreeGenericWorkItem(item);
    return FLT_PREOP_SUCCESS_NO_CALLBACK;
}

static NTSTATUS Setup(PCFLT_RELATED_OBJECTS FltObjects, FLT_INSTANCE_SETUP_FLAGS Flags, DEVICE_TYPE Device, FLT_FILESYSTEM_TYPE Type)
{
    UNREFERENCED_PARAMETER(Flags);
    UNREFERENCED_PARAMETER(Device);
    UNREFERENCED_PARAMETER(Type);
    return OpenOwn(FltObjects);
}

static NTSTATUS Query(PCFLT_RELATED_OBJECTS FltObjects, FLT_INSTANCE_QUERY_TEARDOWN_FLAGS Flags)
{
    UNREFERENCED_PARAMETER(FltObjects);
    UNREFERENCED_PARAMETER(Flags);
    return STATUS_SUCCESS;
}

static VOID TeardownStart(PCFLT_RELATED_OBJECTS FltObjects, FLT_INSTANCE_TEARDOWN_FLAGS Flags)
{
    UNREFERENCED_PARAMETER(Flags);
    CloseOwn(FltObjects->Instance);
}

static NTSTATUS Unload(FLT_FILTER_UNLOAD_FLAGS Flags)
{
    UNREFERENCED_PARAMETER(Flags);
    FltUnregisterFilter(gFilter);
    return STATUS_SUCCESS;
}

static CONST FLT_OPERATION_REGISTRATION Operations[] = {
    {IRP_MJ_CREATE, 0, NULL, PostCreate},
    {IRP_MJ_CLEANUP, 0, PreCleanup, PostCleanup},
    {IRP_MJ_FLUSH_BUFFERS, 0, PreFlush, NULL},
    {IRP_MJ_OPERATION_END},
};

static CONST FLT_REGISTRATION Registration = {
    .Size = sizeof(FLT_REGISTRATION),
    .Version = FLT_REGISTRATION_VERSION,
    .OperationRegistration = Operations,
    .FilterUnloadCallback = Unload,
    .InstanceSetupCallback = Setup,
    .InstanceQueryTeardownCallback = Query,
    .InstanceTeardownStartCallback = TeardownStart,
};

NTSTATUS DriverEntry(PDRIVER_OBJECT DriverObject, PUNICODE_STRING RegistryPath)
{
    UNREFERENCED_PARAMETER(RegistryPath);
    gOwn = NULL;
    NTSTATUS status = FltRegisterFilter(DriverObject, &Registration, &gFilter);
    return NT_SUCCESS(status) ? FltStartFiltering(gFilter) : status;
}
