/* A program's own memory outside of a block that takes exceptions, and calls that raise them there: writes and flushes take the next step, in their order; then a listing, a control code and a message. */
#include <fltKernel.h>

#define UNGUARDED_TAG 'gnuU'

static PFLT_FILTER gFilter;
static PFLT_PORT gPort, gClient;
static LONG gStep;
static ULONG gSum;

/* A helper has no block of its own: its caller's would do. */
static UCHAR First(const UCHAR *Bytes)
{
    return Bytes[0];
}

static VOID LockPages(PVOID Buffer, ULONG Length)
{
    PMDL mdl = IoAllocateMdl(Buffer, Length, FALSE, FALSE, NULL);

    if (mdl == NULL) {
        return;
    }
    MmProbeAndLockPages(mdl, UserMode, IoReadAccess);
    MmUnlockPages(mdl);
    IoFreeMdl(mdl);
}

static FLT_PREOP_CALLBACK_STATUS PreWrite(PFLT_CALLBACK_DATA Data, PCFLT_RELATED_OBJECTS FltObjects, PVOID *CompletionContext)
{
    PUCHAR bytes = Data->Iopb->Parameters.Write.WriteBuffer;
    ULONG length = Data->Iopb->Parameters.Write.Length;
    UCHAR copy[4] = {0};

    UNREFERENCED_PARAMETER(FltObjects);
    UNREFERENCED_PARAMETER(CompletionContext);
    switch (gStep++) {
    case 0:
        gSum += First(bytes);
        break;
    case 1:
        RtlCopyMemory(copy, bytes, sizeof(copy));
        break;
    case 2: /* The block has ended. */
        __try {
            copy[0] = bytes[0];
        } __except (EXCEPTION_EXECUTE_HANDLER) {
            copy[0] = 0;
        }
        copy[1] = bytes[1];
        break;
    case 3: /* The copy alone is guarded. */
        ProbeForRead(bytes, length, sizeof(UCHAR));
        __try {
            RtlCopyMemory(copy, bytes, sizeof(copy));
        } __except (EXCEPTION_EXECUTE_HANDLER) {
            copy[0] = 0;
        }
        break;
    case 4:
        LockPages(bytes, length);
        break;
    }
    gSum += copy[0];
    return FLT_PREOP_SUCCESS_NO_CALLBACK;
}

static FLT_PREOP_CALLBACK_STATUS PreFlush(PFLT_CALLBACK_DATA Data, PCFLT_RELATED_OBJECTS FltObjects, PVOID *CompletionContext)
{
    PVOID room = ExAllocatePoolWithQuotaTag(NonPagedPool, 8, UNGUARDED_TAG);

    UNREFERENCED_PARAMETER(Data);
    UNREFERENCED_PARAMETER(FltObjects);
    UNREFERENCED_PARAMETER(CompletionContext);
    ExFreePoolWithTag(room, UNGUARDED_TAG);
    return FLT_PREOP_SUCCESS_NO_CALLBACK;
}

static FLT_PREOP_CALLBACK_STATUS PreSync(PFLT_CALLBACK_DATA Data, PCFLT_RELATED_OBJECTS FltObjects, PVOID *CompletionContext)
{
    UNREFERENCED_PARAMETER(Data);
    UNREFERENCED_PARAMETER(FltObjects);
    UNREFERENCED_PARAMETER(CompletionContext);
    return FLT_PREOP_SYNCHRONIZE;
}

/* What the file system gave its caller is hidden in place. */
static FLT_POSTOP_CALLBACK_STATUS PostDirectory(PFLT_CALLBACK_DATA Data, PCFLT_RELATED_OBJECTS FltObjects, PVOID CompletionContext, FLT_POST_OPERATION_FLAGS Flags)
{
    PFILE_BOTH_DIR_INFORMATION entry = Data->Iopb->Parameters.DirectoryControl.QueryDirectory.DirectoryBuffer;

    UNREFERENCED_PARAMETER(FltObjects);
    UNREFERENCED_PARAMETER(CompletionContext);
    if (!FlagOn(Flags, FLTFL_POST_OPERATION_DRAINING) && NT_SUCCESS(Data->IoStatus.Status)) {
        entry->FileAttributes |= FILE_ATTRIBUTE_HIDDEN;
    }
    return FLT_POSTOP_FINISHED_PROCESSING;
}

static FLT_PREOP_CALLBACK_STATUS PreControl(PFLT_CALLBACK_DATA Data, PCFLT_RELATED_OBJECTS FltObjects, PVOID *CompletionContext)
{
    UNREFERENCED_PARAMETER(FltObjects);
    UNREFERENCED_PARAMETER(CompletionContext);
    if (METHOD_FROM_CTL_CODE(Data->Iopb->Parameters.FileSystemControl.Common.FsControlCode) == METHOD_NEITHER && Data->Iopb->Parameters.FileSystemControl.Neither.InputBufferLength >= sizeof(ULONG)) {
        gSum += *(PULONG)Data->Iopb->Parameters.FileSystemControl.Neither.InputBuffer;
    }
    return FLT_PREOP_SUCCESS_NO_CALLBACK;
}

static NTSTATUS Connect(PFLT_PORT ClientPort, PVOID ServerCookie, PVOID Context, ULONG Size, PVOID *Cookie)
{
    UNREFERENCED_PARAMETER(ServerCookie);
    UNREFERENCED_PARAMETER(Context);
    UNREFERENCED_PARAMETER(Size);
    UNREFERENCED_PARAMETER(Cookie);
    gClient = ClientPort;
    return STATUS_SUCCESS;
}

static VOID Disconnect(PVOID Cookie)
{
    UNREFERENCED_PARAMETER(Cookie);
    FltCloseClientPort(gFilter, &gClient);
}

static NTSTATUS Message(PVOID Cookie, PVOID Input, ULONG InputLength, PVOID Output, ULONG OutputLength, PULONG Returned)
{
    UNREFERENCED_PARAMETER(Cookie);
    UNREFERENCED_PARAMETER(Output);
    UNREFERENCED_PARAMETER(OutputLength);
    *Returned = 0;
    if (Input != NULL && InputLength >= sizeof(ULONG)) {
        gSum += *(PULONG)Input;
    }
    return STATUS_SUCCESS;
}

static NTSTATUS Unload(FLT_FILTER_UNLOAD_FLAGS Flags)
{
    UNREFERENCED_PARAMETER(Flags);
    FltCloseCommunicationPort(gPort);
    FltUnregisterFilter(gFilter);
    return STATUS_SUCCESS;
}

static const FLT_OPERATION_REGISTRATION gOperations[] = {{IRP_MJ_WRITE, 0, PreWrite, NULL},
                                                         {IRP_MJ_FLUSH_BUFFERS, 0, PreFlush, NULL},
                                                         {IRP_MJ_DIRECTORY_CONTROL, 0, PreSync, PostDirectory},
                                                         {IRP_MJ_FILE_SYSTEM_CONTROL, 0, PreControl, NULL},
                                                         {IRP_MJ_OPERATION_END}};
static const FLT_REGISTRATION gRegistration = {sizeof(FLT_REGISTRATION), FLT_REGISTRATION_VERSION, 0, NULL, gOperations, Unload};

static NTSTATUS OpenPort(VOID)
{
    UNICODE_STRING name = RTL_CONSTANT_STRING(L"\\StuckPort");
    OBJECT_ATTRIBUTES attributes;
    PSECURITY_DESCRIPTOR descriptor;
    NTSTATUS status = FltBuildDefaultSecurityDescriptor(&descriptor, FLT_PORT_ALL_ACCESS);

    if (!NT_SUCCESS(status)) {
        return status;
    }
    InitializeObjectAttributes(&attributes, &name, OBJ_CASE_INSENSITIVE | OBJ_KERNEL_HANDLE, NULL, descriptor);
    status = FltCreateCommunicationPort(gFilter, &gPort, &attributes, NULL, Connect, Disconnect, Message, 1);
    FltFreeSecurityDescriptor(descriptor);
    return status;
}

NTSTATUS DriverEntry(PDRIVER_OBJECT DriverObject, PUNICODE_STRING RegistryPath)
{
    NTSTATUS status = FltRegisterFilter(DriverObject, &gRegistration, &gFilter);

    UNREFERENCED_PARAMETER(RegistryPath);
    if (!NT_SUCCESS(status)) {
        return status;
    }
    status = OpenPort();
    if (NT_SUCCESS(status)) {
        status = FltStartFiltering(gFilter);
    }
    if (!NT_SUCCESS(status)) {
        FltUnregisterFilter(gFilter);
    }
    return status;
}
