/* What callbacks are told beside what an operation does: who asks, its flags, how a file is opened, the room for an answer, and why an instance goes. The higher instance puts its own buffer, which is
 * smaller, in the place of a listing's, and reads the file itself before a read. Reads are registered twice: the first one counts. A context of each handle says when it is cleaned up. */
#include <fltKernel.h>

#define TAG 'galF'
#define ROOM 256

static PFLT_FILTER gFilterHandle;
static PFLT_INSTANCE gHigher;

static PCSTR Which(PCFLT_RELATED_OBJECTS FltObjects)
{
    return FltObjects->Instance == gHigher ? "higher" : "lower";
}

static VOID CleanUp(PFLT_CONTEXT Context, FLT_CONTEXT_TYPE ContextType)
{
    UNREFERENCED_PARAMETER(Context);
    UNREFERENCED_PARAMETER(ContextType);
    DbgPrint("a handle's context goes\n");
}

static VOID Saw(PFLT_CALLBACK_DATA Data, PCFLT_RELATED_OBJECTS FltObjects)
{
    DbgPrint("%s: %s, IRP flags 0x%04x, by %s\n", Which(FltObjects), FltGetIrpName(Data->Iopb->MajorFunction), Data->Iopb->IrpFlags,
             Data->RequestorMode == KernelMode ? "a driver" : "a program");
}

static FLT_PREOP_CALLBACK_STATUS PreCreate(PFLT_CALLBACK_DATA Data, PCFLT_RELATED_OBJECTS FltObjects, PVOID *CompletionContext)
{
    ULONG options = Data->Iopb->Parameters.Create.Options;

    UNREFERENCED_PARAMETER(CompletionContext);
    Saw(Data, FltObjects);
    DbgPrint("%s: a folder %u, a file %u\n", Which(FltObjects), FlagOn(options, FILE_DIRECTORY_FILE) != 0, FlagOn(options, FILE_NON_DIRECTORY_FILE) != 0);
    return FLT_PREOP_SUCCESS_WITH_CALLBACK;
}

static FLT_POSTOP_CALLBACK_STATUS PostCreate(PFLT_CALLBACK_DATA Data, PCFLT_RELATED_OBJECTS FltObjects, PVOID CompletionContext, FLT_POST_OPERATION_FLAGS Flags)
{
    PFLT_CONTEXT context;

    UNREFERENCED_PARAMETER(CompletionContext);
    if (FlagOn(Flags, FLTFL_POST_OPERATION_DRAINING) || !NT_SUCCESS(Data->IoStatus.Status) || FltObjects->Instance == gHigher) {
        return FLT_POSTOP_FINISHED_PROCESSING;
    }
    if (NT_SUCCESS(FltAllocateContext(gFilterHandle, FLT_STREAMHANDLE_CONTEXT, sizeof(ULONG), PagedPool, &context))) {
        FltSetStreamHandleContext(FltObjects->Instance, FltObjects->FileObject, FLT_SET_CONTEXT_KEEP_IF_EXISTS, context, NULL);
        FltReleaseContext(context);
    }
    return FLT_POSTOP_FINISHED_PROCESSING;
}

static FLT_PREOP_CALLBACK_STATUS PreRead(PFLT_CALLBACK_DATA Data, PCFLT_RELATED_OBJECTS FltObjects, PVOID *CompletionContext)
{
    LARGE_INTEGER offset = {0};
    UCHAR byte;
    ULONG done;

    UNREFERENCED_PARAMETER(CompletionContext);
    Saw(Data, FltObjects);
    if (FltObjects->Instance == gHigher) {
        FltReadFile(FltObjects->Instance, FltObjects->FileObject, &offset, 1, &byte, FLTFL_IO_OPERATION_DO_NOT_UPDATE_BYTE_OFFSET, &done, NULL, NULL);
    }
    return FLT_PREOP_SUCCESS_NO_CALLBACK;
}

static FLT_PREOP_CALLBACK_STATUS PreReadToo(PFLT_CALLBACK_DATA Data, PCFLT_RELATED_OBJECTS FltObjects, PVOID *CompletionContext)
{
    UNREFERENCED_PARAMETER(Data);
    UNREFERENCED_PARAMETER(CompletionContext);
    DbgPrint("%s: the second registration of reads\n", Which(FltObjects));
    return FLT_PREOP_SUCCESS_NO_CALLBACK;
}

static FLT_PREOP_CALLBACK_STATUS PreList(PFLT_CALLBACK_DATA Data, PCFLT_RELATED_OBJECTS FltObjects, PVOID *CompletionContext)
{
    PFLT_PARAMETERS now = &Data->Iopb->Parameters;
    PVOID own;

    Saw(Data, FltObjects);
    DbgPrint("%s: room for %u bytes\n", Which(FltObjects), now->DirectoryControl.QueryDirectory.Length);
    if (FltObjects->Instance != gHigher) {
        return FLT_PREOP_SUCCESS_NO_CALLBACK;
    }
    own = ExAllocatePoolWithTag(NonPagedPool, ROOM, TAG);
    if (own == NULL) {
        return FLT_PREOP_SUCCESS_NO_CALLBACK;
    }
    RtlZeroMemory(own, ROOM);
    now->DirectoryControl.QueryDirectory.DirectoryBuffer = own;
    now->DirectoryControl.QueryDirectory.MdlAddress = NULL;
    now->DirectoryControl.QueryDirectory.Length = ROOM;
    FltSetCallbackDataDirty(Data);
    *CompletionContext = own;
    return FLT_PREOP_SUCCESS_WITH_CALLBACK;
}

static FLT_POSTOP_CALLBACK_STATUS PostList(PFLT_CALLBACK_DATA Data, PCFLT_RELATED_OBJECTS FltObjects, PVOID CompletionContext, FLT_POST_OPERATION_FLAGS Flags)
{
    PFLT_PARAMETERS was = &Data->Iopb->Parameters;

    UNREFERENCED_PARAMETER(FltObjects);
    if (!FlagOn(Flags, FLTFL_POST_OPERATION_DRAINING) && NT_SUCCESS(Data->IoStatus.Status)) {
        __try {
            RtlCopyMemory(was->DirectoryControl.QueryDirectory.DirectoryBuffer, CompletionContext, Data->IoStatus.Information);
        } __except (EXCEPTION_EXECUTE_HANDLER) {
            Data->IoStatus.Status = GetExceptionCode();
        }
    }
    ExFreePoolWithTag(CompletionContext, TAG);
    return FLT_POSTOP_FINISHED_PROCESSING;
}

static FLT_PREOP_CALLBACK_STATUS PreOther(PFLT_CALLBACK_DATA Data, PCFLT_RELATED_OBJECTS FltObjects, PVOID *CompletionContext)
{
    UNREFERENCED_PARAMETER(CompletionContext);
    Saw(Data, FltObjects);
    return FLT_PREOP_SUCCESS_NO_CALLBACK;
}

static NTSTATUS InstanceSetup(PCFLT_RELATED_OBJECTS FltObjects, FLT_INSTANCE_SETUP_FLAGS Flags, DEVICE_TYPE VolumeDeviceType, FLT_FILESYSTEM_TYPE VolumeFilesystemType)
{
    UNREFERENCED_PARAMETER(Flags);
    UNREFERENCED_PARAMETER(VolumeDeviceType);
    UNREFERENCED_PARAMETER(VolumeFilesystemType);
    gHigher = FltObjects->Instance;
    return STATUS_SUCCESS;
}

static NTSTATUS InstanceQueryTeardown(PCFLT_RELATED_OBJECTS FltObjects, FLT_INSTANCE_QUERY_TEARDOWN_FLAGS Flags)
{
    UNREFERENCED_PARAMETER(FltObjects);
    UNREFERENCED_PARAMETER(Flags);
    return STATUS_SUCCESS;
}

static VOID InstanceTeardownStart(PCFLT_RELATED_OBJECTS FltObjects, FLT_INSTANCE_TEARDOWN_FLAGS Reason)
{
    DbgPrint("%s: the teardown starts, reason 0x%02x\n", Which(FltObjects), Reason);
}

static VOID InstanceTeardownComplete(PCFLT_RELATED_OBJECTS FltObjects, FLT_INSTANCE_TEARDOWN_FLAGS Reason)
{
    DbgPrint("%s: the teardown is complete, reason 0x%02x\n", Which(FltObjects), Reason);
}

static NTSTATUS Unload(FLT_FILTER_UNLOAD_FLAGS Flags)
{
    UNREFERENCED_PARAMETER(Flags);
    FltUnregisterFilter(gFilterHandle);
    return STATUS_SUCCESS;
}

static const FLT_CONTEXT_REGISTRATION Contexts[] = {{FLT_STREAMHANDLE_CONTEXT, 0, CleanUp, sizeof(ULONG), TAG}, {FLT_CONTEXT_END}};

static const FLT_OPERATION_REGISTRATION Callbacks[] = {{IRP_MJ_CREATE, 0, PreCreate, PostCreate},
                                                       {IRP_MJ_READ, 0, PreRead, NULL},
                                                       {IRP_MJ_READ, 0, PreReadToo, NULL},
                                                       {IRP_MJ_WRITE, 0, PreOther, NULL},
                                                       {IRP_MJ_QUERY_INFORMATION, 0, PreOther, NULL},
                                                       {IRP_MJ_FLUSH_BUFFERS, 0, PreOther, NULL},
                                                       {IRP_MJ_DIRECTORY_CONTROL, 0, PreList, PostList},
                                                       {IRP_MJ_CLEANUP, 0, PreOther, NULL},
                                                       {IRP_MJ_OPERATION_END}};

static const FLT_REGISTRATION Registration = {sizeof(FLT_REGISTRATION), FLT_REGISTRATION_VERSION, 0, Contexts, Callbacks, Unload, InstanceSetup, InstanceQueryTeardown, InstanceTeardownStart, InstanceTeardownComplete};

NTSTATUS DriverEntry(PDRIVER_OBJECT DriverObject, PUNICODE_STRING RegistryPath)
{
    NTSTATUS status = FltRegisterFilter(DriverObject, &Registration, &gFilterHandle);

    UNREFERENCED_PARAMETER(RegistryPath);
    if (NT_SUCCESS(status)) {
        status = FltStartFiltering(gFilterHandle);
        if (!NT_SUCCESS(status)) {
            FltUnregisterFilter(gFilterHandle);
        }
    }
    return status;
}
