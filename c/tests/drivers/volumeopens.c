/* A filter that keeps a file of its own open on its volume, as the kit's metadataManager does: it closes it before somebody locks the volume or has it dismounted, and opens it again if that failed or
 * was taken back. It says what opens of the volume itself look like. */
#include <fltKernel.h>

static PFLT_FILTER gFilter;
static HANDLE gFile;
static PFILE_OBJECT gObject;

static VOID OpenOwn(_In_ PFLT_INSTANCE Instance)
{
    UNICODE_STRING name = RTL_CONSTANT_STRING(L"\\Device\\v0\\own.md");
    OBJECT_ATTRIBUTES attributes;
    IO_STATUS_BLOCK io;
    NTSTATUS status;

    if (gFile != NULL) {
        return;
    }
    InitializeObjectAttributes(&attributes, &name, OBJ_KERNEL_HANDLE, NULL, NULL);
    status = FltCreateFileEx(gFilter, Instance, &gFile, &gObject, FILE_GENERIC_READ | FILE_GENERIC_WRITE, &attributes, &io, NULL, FILE_ATTRIBUTE_NORMAL, 0, FILE_OPEN_IF, FILE_NON_DIRECTORY_FILE, NULL, 0, 0);
    DbgPrint("own file: %08x\n", status);
}

static VOID CloseOwn(VOID)
{
    if (gFile != NULL) {
        ObDereferenceObject(gObject);
        FltClose(gFile);
        gFile = NULL;
    }
}

static FLT_PREOP_CALLBACK_STATUS PreCreate(_Inout_ PFLT_CALLBACK_DATA Data, _In_ PCFLT_RELATED_OBJECTS FltObjects, _Flt_CompletionContext_Outptr_ PVOID *CompletionContext)
{
    PFLT_FILE_NAME_INFORMATION name;

    UNREFERENCED_PARAMETER(CompletionContext);
    if (FltObjects->FileObject->FileName.Length != 0) {
        return FLT_PREOP_SUCCESS_NO_CALLBACK;
    }
    if (NT_SUCCESS(FltGetFileNameInformation(Data, FLT_FILE_NAME_OPENED | FLT_FILE_NAME_QUERY_DEFAULT, &name))) {
        DbgPrint("the volume is opened: %wZ, share %x, %s\n", &name->Name, Data->Iopb->Parameters.Create.ShareAccess, FlagOn(FltObjects->FileObject->Flags, FO_VOLUME_OPEN) ? "FO_VOLUME_OPEN" : "no flag");
        FltReleaseFileNameInformation(name);
    }
    return FLT_PREOP_SUCCESS_WITH_CALLBACK;
}

static FLT_POSTOP_CALLBACK_STATUS PostCreate(_Inout_ PFLT_CALLBACK_DATA Data, _In_ PCFLT_RELATED_OBJECTS FltObjects, _In_opt_ PVOID CompletionContext, _In_ FLT_POST_OPERATION_FLAGS Flags)
{
    BOOLEAN isDirectory = TRUE;

    UNREFERENCED_PARAMETER(CompletionContext);
    UNREFERENCED_PARAMETER(Flags);
    if (NT_SUCCESS(Data->IoStatus.Status)) {
        FltIsDirectory(FltObjects->FileObject, FltObjects->Instance, &isDirectory);
        DbgPrint("it was opened: a directory %u, contexts of streams %u\n", isDirectory, FltSupportsStreamContexts(FltObjects->FileObject));
    }
    return FLT_POSTOP_FINISHED_PROCESSING;
}

static FLT_PREOP_CALLBACK_STATUS PreControl(_Inout_ PFLT_CALLBACK_DATA Data, _In_ PCFLT_RELATED_OBJECTS FltObjects, _Flt_CompletionContext_Outptr_ PVOID *CompletionContext)
{
    ULONG code = Data->Iopb->Parameters.FileSystemControl.Common.FsControlCode;

    UNREFERENCED_PARAMETER(CompletionContext);
    if (!FlagOn(FltObjects->FileObject->Flags, FO_VOLUME_OPEN) || (code != FSCTL_LOCK_VOLUME && code != FSCTL_DISMOUNT_VOLUME && code != FSCTL_UNLOCK_VOLUME)) {
        return FLT_PREOP_SUCCESS_NO_CALLBACK;
    }
    if (code != FSCTL_UNLOCK_VOLUME) {
        CloseOwn();
    }
    return FLT_PREOP_SYNCHRONIZE;
}

static FLT_POSTOP_CALLBACK_STATUS PostControl(_Inout_ PFLT_CALLBACK_DATA Data, _In_ PCFLT_RELATED_OBJECTS FltObjects, _In_opt_ PVOID CompletionContext, _In_ FLT_POST_OPERATION_FLAGS Flags)
{
    ULONG code = Data->Iopb->Parameters.FileSystemControl.Common.FsControlCode;

    UNREFERENCED_PARAMETER(CompletionContext);
    if (!FlagOn(Flags, FLTFL_POST_OPERATION_DRAINING) && NT_SUCCESS(Data->IoStatus.Status) == (code == FSCTL_UNLOCK_VOLUME)) {
        OpenOwn(FltObjects->Instance);
    }
    return FLT_POSTOP_FINISHED_PROCESSING;
}

static NTSTATUS Setup(_In_ PCFLT_RELATED_OBJECTS FltObjects, _In_ FLT_INSTANCE_SETUP_FLAGS Flags, _In_ DEVICE_TYPE VolumeDeviceType, _In_ FLT_FILESYSTEM_TYPE VolumeFilesystemType)
{
    UNREFERENCED_PARAMETER(Flags);
    UNREFERENCED_PARAMETER(VolumeDeviceType);
    UNREFERENCED_PARAMETER(VolumeFilesystemType);
    OpenOwn(FltObjects->Instance);
    return STATUS_SUCCESS;
}

static VOID TeardownStart(_In_ PCFLT_RELATED_OBJECTS FltObjects, _In_ FLT_INSTANCE_TEARDOWN_FLAGS Reason)
{
    HANDLE handle;
    NTSTATUS status;

    CloseOwn();
    if (!FlagOn(Reason, FLTFL_INSTANCE_TEARDOWN_VOLUME_DISMOUNT)) {
        status = FltOpenVolume(FltObjects->Instance, &handle, NULL);
        DbgPrint("FltOpenVolume: %08x\n", status);
        if (NT_SUCCESS(status)) {
            FltClose(handle);
        }
    } else {
        DbgPrint("the volume is dismounted\n");
    }
}

static NTSTATUS Unload(_In_ FLT_FILTER_UNLOAD_FLAGS Flags)
{
    UNREFERENCED_PARAMETER(Flags);
    FltUnregisterFilter(gFilter);
    return STATUS_SUCCESS;
}

static const FLT_OPERATION_REGISTRATION Callbacks[] = {{IRP_MJ_CREATE, 0, PreCreate, PostCreate}, {IRP_MJ_FILE_SYSTEM_CONTROL, 0, PreControl, PostControl}, {IRP_MJ_OPERATION_END}};
static const FLT_REGISTRATION Registration = {.Size = sizeof(FLT_REGISTRATION), .Version = FLT_REGISTRATION_VERSION, .OperationRegistration = Callbacks, .FilterUnloadCallback = Unload,
                                              .InstanceSetupCallback = Setup, .InstanceTeardownStartCallback = TeardownStart};

NTSTATUS DriverEntry(_In_ PDRIVER_OBJECT DriverObject, _In_ PUNICODE_STRING RegistryPath)
{
    NTSTATUS status = FltRegisterFilter(DriverObject, &Registration, &gFilter);

    UNREFERENCED_PARAMETER(RegistryPath);
    if (NT_SUCCESS(status)) {
        status = FltStartFiltering(gFilter);
        if (!NT_SUCCESS(status)) {
            FltUnregisterFilter(gFilter);
        }
    }
    return status;
}
