/* Calls that the kit refuses, by its pages: whoever hears another answer fails its load, its attach, its create or its read. */
#include <fltKernel.h>

static PFLT_FILTER gFilter;

static NTSTATUS NameStatus(_In_ PFLT_CALLBACK_DATA Data, _In_ FLT_FILE_NAME_OPTIONS Options)
{
    PFLT_FILE_NAME_INFORMATION name;
    NTSTATUS status = FltGetFileNameInformation(Data, Options, &name);

    if (NT_SUCCESS(status)) {
        FltReleaseFileNameInformation(name);
    }
    return status;
}

static FLT_PREOP_CALLBACK_STATUS Denied(_Inout_ PFLT_CALLBACK_DATA Data)
{
    Data->IoStatus.Status = STATUS_ACCESS_DENIED;
    Data->IoStatus.Information = 0;
    return FLT_PREOP_COMPLETE;
}

/* No file system has opened it yet: it has no short name, no context, and the cache of names has only what this create asked for. */
static FLT_PREOP_CALLBACK_STATUS PreCreate(_Inout_ PFLT_CALLBACK_DATA Data, _In_ PCFLT_RELATED_OBJECTS FltObjects, _Flt_CompletionContext_Outptr_ PVOID *CompletionContext)
{
    BOOLEAN isRight = !FltSupportsStreamContexts(FltObjects->FileObject) && !FltSupportsStreamHandleContexts(FltObjects->FileObject) &&
                      NameStatus(Data, FLT_FILE_NAME_SHORT | FLT_FILE_NAME_QUERY_DEFAULT) == STATUS_FLT_INVALID_NAME_REQUEST &&
                      NameStatus(Data, FLT_FILE_NAME_OPENED | FLT_FILE_NAME_QUERY_CACHE_ONLY) == STATUS_FLT_NAME_CACHE_MISS;

    UNREFERENCED_PARAMETER(CompletionContext);
    return isRight ? FLT_PREOP_SUCCESS_NO_CALLBACK : Denied(Data);
}

/* The name of a file that nobody asked for isn't in the cache; one that was asked for is, in that format, until it is renamed. */
static BOOLEAN KnowsNames(_In_ PFLT_CALLBACK_DATA Data)
{
    FLT_FILE_NAME_OPTIONS cached = FLT_FILE_NAME_NORMALIZED | FLT_FILE_NAME_QUERY_CACHE_ONLY;

    if (Data->Iopb->Parameters.Read.ByteOffset.QuadPart != 0) {
        return NameStatus(Data, cached) == STATUS_SUCCESS;
    }
    return NameStatus(Data, cached) == STATUS_FLT_NAME_CACHE_MISS && NameStatus(Data, FLT_FILE_NAME_NORMALIZED | FLT_FILE_NAME_QUERY_DEFAULT) == STATUS_SUCCESS &&
           NameStatus(Data, cached) == STATUS_SUCCESS && NameStatus(Data, FLT_FILE_NAME_OPENED | FLT_FILE_NAME_QUERY_CACHE_ONLY) == STATUS_FLT_NAME_CACHE_MISS;
}

static VOID Unqueued(_In_ PFLT_DEFERRED_IO_WORKITEM FltWorkItem, _In_ PFLT_CALLBACK_DATA CallbackData, _In_opt_ PVOID Context)
{
    UNREFERENCED_PARAMETER(FltWorkItem);
    UNREFERENCED_PARAMETER(CallbackData);
    UNREFERENCED_PARAMETER(Context);
}

/* The memory manager asks for itself, by a description, and waits where no work item may make it wait. */
static BOOLEAN IsPaging(_In_ PFLT_CALLBACK_DATA Data, _In_opt_ PMDL Mdl, _In_ ULONG Length)
{
    PFLT_DEFERRED_IO_WORKITEM item = FltAllocateDeferredIoWorkItem();
    BOOLEAN isRefused;

    if (item == NULL) {
        return TRUE;
    }
    isRefused = FltQueueDeferredIoWorkItem(item, Data, Unqueued, DelayedWorkQueue, NULL) == STATUS_FLT_NOT_SAFE_TO_POST_OPERATION;
    FltFreeDeferredIoWorkItem(item);
    return isRefused && Data->RequestorMode == KernelMode && Mdl != NULL && MmGetMdlByteCount(Mdl) == Length;
}

static FLT_PREOP_CALLBACK_STATUS PreRead(_Inout_ PFLT_CALLBACK_DATA Data, _In_ PCFLT_RELATED_OBJECTS FltObjects, _Flt_CompletionContext_Outptr_ PVOID *CompletionContext)
{
    PFLT_PARAMETERS now = &Data->Iopb->Parameters;
    BOOLEAN isRight = FlagOn(Data->Iopb->IrpFlags, IRP_PAGING_IO) ? IsPaging(Data, now->Read.MdlAddress, now->Read.Length) : Data->RequestorMode == UserMode;

    UNREFERENCED_PARAMETER(FltObjects);
    UNREFERENCED_PARAMETER(CompletionContext);
    return isRight && (FlagOn(Data->Iopb->IrpFlags, IRP_PAGING_IO) || KnowsNames(Data)) ? FLT_PREOP_SUCCESS_NO_CALLBACK : Denied(Data);
}

static FLT_PREOP_CALLBACK_STATUS PreWrite(_Inout_ PFLT_CALLBACK_DATA Data, _In_ PCFLT_RELATED_OBJECTS FltObjects, _Flt_CompletionContext_Outptr_ PVOID *CompletionContext)
{
    PFLT_PARAMETERS now = &Data->Iopb->Parameters;

    UNREFERENCED_PARAMETER(FltObjects);
    UNREFERENCED_PARAMETER(CompletionContext);
    if (!FlagOn(Data->Iopb->IrpFlags, IRP_PAGING_IO) || IsPaging(Data, now->Write.MdlAddress, now->Write.Length)) {
        return FLT_PREOP_SUCCESS_NO_CALLBACK;
    }
    return Denied(Data);
}

/* What isn't carried by a request can't be put off. */
static FLT_PREOP_CALLBACK_STATUS PreAcquire(_Inout_ PFLT_CALLBACK_DATA Data, _In_ PCFLT_RELATED_OBJECTS FltObjects, _Flt_CompletionContext_Outptr_ PVOID *CompletionContext)
{
    PFLT_DEFERRED_IO_WORKITEM item = FltAllocateDeferredIoWorkItem();
    NTSTATUS status = STATUS_FLT_NOT_SAFE_TO_POST_OPERATION;

    UNREFERENCED_PARAMETER(FltObjects);
    UNREFERENCED_PARAMETER(CompletionContext);
    if (item != NULL) {
        status = FltQueueDeferredIoWorkItem(item, Data, Unqueued, DelayedWorkQueue, NULL);
        FltFreeDeferredIoWorkItem(item);
    }
    return status == STATUS_FLT_NOT_SAFE_TO_POST_OPERATION ? FLT_PREOP_SUCCESS_NO_CALLBACK : Denied(Data);
}

static NTSTATUS Setup(_In_ PCFLT_RELATED_OBJECTS FltObjects, _In_ FLT_INSTANCE_SETUP_FLAGS Flags, _In_ DEVICE_TYPE VolumeDeviceType, _In_ FLT_FILESYSTEM_TYPE VolumeFilesystemType)
{
    OBJECT_ATTRIBUTES attributes;
    UNICODE_STRING name = RTL_CONSTANT_STRING(L"a");
    IO_STATUS_BLOCK answer;
    HANDLE handle;
    NTSTATUS status;

    UNREFERENCED_PARAMETER(Flags);
    UNREFERENCED_PARAMETER(VolumeDeviceType);
    UNREFERENCED_PARAMETER(VolumeFilesystemType);
    InitializeObjectAttributes(&attributes, &name, OBJ_KERNEL_HANDLE, NULL, NULL);
    status = FltCreateFile(gFilter, FltObjects->Instance, &handle, FILE_READ_DATA, &attributes, &answer, NULL, FILE_ATTRIBUTE_NORMAL, FILE_SHARE_READ, FILE_OPEN, 0, NULL, 0, 0);
    if (NT_SUCCESS(status)) {
        FltClose(handle);
    }
    return status == STATUS_OBJECT_PATH_SYNTAX_BAD ? STATUS_SUCCESS : STATUS_FLT_DO_NOT_ATTACH;
}

static NTSTATUS QueryTeardown(_In_ PCFLT_RELATED_OBJECTS FltObjects, _In_ FLT_INSTANCE_QUERY_TEARDOWN_FLAGS Flags)
{
    UNREFERENCED_PARAMETER(FltObjects);
    UNREFERENCED_PARAMETER(Flags);
    return STATUS_SUCCESS;
}

static NTSTATUS Unload(_In_ FLT_FILTER_UNLOAD_FLAGS Flags)
{
    UNREFERENCED_PARAMETER(Flags);
    FltUnregisterFilter(gFilter);
    return STATUS_SUCCESS;
}

static BOOLEAN DisablesApcs(VOID)
{
    static ERESOURCE resource;
    BOOLEAN isRight;

    if (!NT_SUCCESS(ExInitializeResourceLite(&resource))) {
        return FALSE;
    }
    isRight = !KeAreApcsDisabled();
    FltAcquireResourceExclusive(&resource);
    isRight = isRight && KeAreApcsDisabled();
    FltReleaseResource(&resource);
    ExDeleteResourceLite(&resource);
    return isRight && !KeAreApcsDisabled();
}

static BOOLEAN RefusesPagedVolumeContext(VOID)
{
    PFLT_CONTEXT context;
    NTSTATUS status = FltAllocateContext(gFilter, FLT_VOLUME_CONTEXT, 16, PagedPool, &context);

    if (NT_SUCCESS(status)) {
        FltReleaseContext(context);
    }
    return status == STATUS_INVALID_PARAMETER;
}

static const FLT_OPERATION_REGISTRATION Operations[] = {
    {IRP_MJ_CREATE, 0, PreCreate, NULL}, {IRP_MJ_READ, 0, PreRead, NULL}, {IRP_MJ_WRITE, 0, PreWrite, NULL}, {IRP_MJ_ACQUIRE_FOR_SECTION_SYNCHRONIZATION, 0, PreAcquire, NULL}, {IRP_MJ_OPERATION_END}};

static const FLT_CONTEXT_REGISTRATION Contexts[] = {{FLT_VOLUME_CONTEXT, 0, NULL, 16, 'fueR'}, {FLT_CONTEXT_END}};

NTSTATUS DriverEntry(_In_ PDRIVER_OBJECT DriverObject, _In_ PUNICODE_STRING RegistryPath)
{
    FLT_REGISTRATION registration = {.Size = sizeof(FLT_REGISTRATION),
                                     .Version = FLT_REGISTRATION_VERSION,
                                     .ContextRegistration = Contexts,
                                     .OperationRegistration = Operations,
                                     .FilterUnloadCallback = Unload,
                                     .InstanceSetupCallback = Setup,
                                     .InstanceQueryTeardownCallback = QueryTeardown};
    NTSTATUS status;

    UNREFERENCED_PARAMETER(RegistryPath);
    status = FltRegisterFilter(DriverObject, &registration, &gFilter);
    if (!NT_SUCCESS(status)) {
        return status;
    }
    if (NT_SUCCESS(status = FltStartFiltering(gFilter)) && FltStartFiltering(gFilter) == STATUS_INVALID_PARAMETER && DisablesApcs() && RefusesPagedVolumeContext()) {
        return STATUS_SUCCESS;
    }
    FltUnregisterFilter(gFilter);
    return NT_SUCCESS(status) ? STATUS_UNSUCCESSFUL : status;
}
