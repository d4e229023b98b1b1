/* A filter that says, row by row, what the kit's pages state and what is easily had wrong: work items that may not be posted, who asks in paging I/O, names that can't be had, contexts before
 * their file is open, locks, and a name without a root. Its port and its answers are for the program beside it. */
#include <fltKernel.h>

static PFLT_FILTER gFilter;
static PFLT_PORT gServer, gClient;

static VOID Never(_In_ PFLT_DEFERRED_IO_WORKITEM FltWorkItem, _In_ PFLT_CALLBACK_DATA Data, _In_opt_ PVOID Context)
{
    UNREFERENCED_PARAMETER(FltWorkItem);
    UNREFERENCED_PARAMETER(Data);
    UNREFERENCED_PARAMETER(Context);
    DbgPrint("a work item that may not be posted ran\n");
}

static VOID Post(_In_ PFLT_CALLBACK_DATA Data, _In_ PCSTR Row)
{
    PFLT_DEFERRED_IO_WORKITEM item = FltAllocateDeferredIoWorkItem();

    if (item != NULL) {
        DbgPrint("%s: FltQueueDeferredIoWorkItem %08x\n", Row, FltQueueDeferredIoWorkItem(item, Data, Never, DelayedWorkQueue, NULL));
        FltFreeDeferredIoWorkItem(item);
    }
}

static FLT_PREOP_CALLBACK_STATUS PreRead(_Inout_ PFLT_CALLBACK_DATA Data, _In_ PCFLT_RELATED_OBJECTS FltObjects, _Flt_CompletionContext_Outptr_ PVOID *CompletionContext)
{
    UNREFERENCED_PARAMETER(FltObjects);
    UNREFERENCED_PARAMETER(CompletionContext);
    if (FlagOn(Data->Iopb->IrpFlags, IRP_PAGING_IO)) {
        Post(Data, "1 paging I/O");
        DbgPrint("3 paging I/O: RequestorMode %s\n", Data->RequestorMode == KernelMode ? "KernelMode" : "UserMode");
        DbgPrint("4 paging I/O: MdlAddress %s\n", Data->Iopb->Parameters.Read.MdlAddress != NULL ? "there" : "NULL");
    }
    return FLT_PREOP_SUCCESS_NO_CALLBACK;
}

static FLT_PREOP_CALLBACK_STATUS PreAcquire(_Inout_ PFLT_CALLBACK_DATA Data, _In_ PCFLT_RELATED_OBJECTS FltObjects, _Flt_CompletionContext_Outptr_ PVOID *CompletionContext)
{
    UNREFERENCED_PARAMETER(FltObjects);
    UNREFERENCED_PARAMETER(CompletionContext);
    Post(Data, "2 an FSFilter operation");
    return FLT_PREOP_SUCCESS_NO_CALLBACK;
}

static NTSTATUS AskName(_In_ PFLT_CALLBACK_DATA Data, _In_ FLT_FILE_NAME_OPTIONS Options)
{
    PFLT_FILE_NAME_INFORMATION name;
    NTSTATUS status = FltGetFileNameInformation(Data, Options, &name);

    if (NT_SUCCESS(status)) {
        FltReleaseFileNameInformation(name);
    }
    return status;
}

static FLT_PREOP_CALLBACK_STATUS PreCreate(_Inout_ PFLT_CALLBACK_DATA Data, _In_ PCFLT_RELATED_OBJECTS FltObjects, _Flt_CompletionContext_Outptr_ PVOID *CompletionContext)
{
    UNREFERENCED_PARAMETER(CompletionContext);
    if (FltObjects->FileObject->FileName.Length == 5 * sizeof(WCHAR) && wcsncmp(FltObjects->FileObject->FileName.Buffer, L"\\rows", 5) == 0) {
        DbgPrint("6 a preoperation of a create: FLT_FILE_NAME_SHORT %08x\n", AskName(Data, FLT_FILE_NAME_SHORT | FLT_FILE_NAME_QUERY_DEFAULT));
        DbgPrint("7 a name that nobody asked for: FLT_FILE_NAME_QUERY_CACHE_ONLY %08x\n", AskName(Data, FLT_FILE_NAME_NORMALIZED | FLT_FILE_NAME_QUERY_CACHE_ONLY));
        DbgPrint("10 a preoperation of a create: FltSupportsStreamContexts %s\n", FltSupportsStreamContexts(FltObjects->FileObject) ? "TRUE" : "FALSE");
        return FLT_PREOP_SUCCESS_WITH_CALLBACK;
    }
    if (FltObjects->FileObject->FileName.Length == 5 * sizeof(WCHAR) && wcsncmp(FltObjects->FileObject->FileName.Buffer, L"\\busy", 5) == 0) {
        Data->IoStatus.Status = STATUS_DEVICE_BUSY;
        Data->IoStatus.Information = 0;
        return FLT_PREOP_COMPLETE;
    }
    return FLT_PREOP_SUCCESS_NO_CALLBACK;
}

static FLT_POSTOP_CALLBACK_STATUS PostCreate(_Inout_ PFLT_CALLBACK_DATA Data, _In_ PCFLT_RELATED_OBJECTS FltObjects, _In_opt_ PVOID CompletionContext, _In_ FLT_POST_OPERATION_FLAGS Flags)
{
    UNICODE_STRING name = RTL_CONSTANT_STRING(L"own2");
    OBJECT_ATTRIBUTES attributes;
    IO_STATUS_BLOCK io;
    HANDLE file;

    UNREFERENCED_PARAMETER(Data);
    UNREFERENCED_PARAMETER(CompletionContext);
    UNREFERENCED_PARAMETER(Flags);
    DbgPrint("5 an open file on NTFS: FltSupportsFileContexts %s\n", FltSupportsFileContexts(FltObjects->FileObject) ? "TRUE" : "FALSE");
    InitializeObjectAttributes(&attributes, &name, OBJ_KERNEL_HANDLE, NULL, NULL);
    DbgPrint("12 a name without a root: FltCreateFile %08x\n", FltCreateFile(FltObjects->Filter, FltObjects->Instance, &file, GENERIC_READ, &attributes, &io, NULL, 0, FILE_SHARE_READ, FILE_OPEN, 0, NULL, 0, 0));
    return FLT_POSTOP_FINISHED_PROCESSING;
}

static VOID AskLocks(VOID)
{
    ERESOURCE resource;

    ExInitializeResourceLite(&resource);
    DbgPrint("11 before FltAcquireResourceExclusive: KeAreApcsDisabled %s\n", KeAreApcsDisabled() ? "TRUE" : "FALSE");
    FltAcquireResourceExclusive(&resource);
    DbgPrint("11 after FltAcquireResourceExclusive: KeAreApcsDisabled %s\n", KeAreApcsDisabled() ? "TRUE" : "FALSE");
    FltReleaseResource(&resource);
    ExDeleteResourceLite(&resource);
}

static NTSTATUS Connect(_In_ PFLT_PORT ClientPort, _In_opt_ PVOID ServerPortCookie, _In_reads_bytes_opt_(SizeOfContext) PVOID ConnectionContext, _In_ ULONG SizeOfContext, _Outptr_result_maybenull_ PVOID *ConnectionPortCookie)
{
    UNREFERENCED_PARAMETER(ServerPortCookie);
    UNREFERENCED_PARAMETER(ConnectionContext);
    UNREFERENCED_PARAMETER(SizeOfContext);
    *ConnectionPortCookie = NULL;
    gClient = ClientPort;
    return STATUS_SUCCESS;
}

static VOID Disconnect(_In_opt_ PVOID ConnectionCookie)
{
    UNREFERENCED_PARAMETER(ConnectionCookie);
    FltCloseClientPort(gFilter, &gClient);
}

static NTSTATUS MakePort(VOID)
{
    UNICODE_STRING name = RTL_CONSTANT_STRING(L"\\Statements");
    PSECURITY_DESCRIPTOR descriptor;
    OBJECT_ATTRIBUTES attributes;
    NTSTATUS status = FltBuildDefaultSecurityDescriptor(&descriptor, FLT_PORT_ALL_ACCESS);

    if (!NT_SUCCESS(status)) {
        return status;
    }
    InitializeObjectAttributes(&attributes, &name, OBJ_KERNEL_HANDLE | OBJ_CASE_INSENSITIVE, NULL, descriptor);
    status = FltCreateCommunicationPort(gFilter, &gServer, &attributes, NULL, Connect, Disconnect, NULL, 1);
    FltFreeSecurityDescriptor(descriptor);
    return status;
}

static NTSTATUS Unload(_In_ FLT_FILTER_UNLOAD_FLAGS Flags)
{
    UNREFERENCED_PARAMETER(Flags);
    FltCloseCommunicationPort(gServer);
    FltUnregisterFilter(gFilter);
    return STATUS_SUCCESS;
}

static const FLT_OPERATION_REGISTRATION Callbacks[] = {
    {IRP_MJ_CREATE, 0, PreCreate, PostCreate}, {IRP_MJ_READ, 0, PreRead, NULL}, {IRP_MJ_ACQUIRE_FOR_SECTION_SYNCHRONIZATION, 0, PreAcquire, NULL}, {IRP_MJ_OPERATION_END}};
static const FLT_CONTEXT_REGISTRATION Contexts[] = {{FLT_VOLUME_CONTEXT, 0, NULL, sizeof(ULONG), 'etaS'}, {FLT_CONTEXT_END}};
static const FLT_REGISTRATION Registration = {sizeof(FLT_REGISTRATION), FLT_REGISTRATION_VERSION, 0, Contexts, Callbacks, Unload};

NTSTATUS DriverEntry(_In_ PDRIVER_OBJECT DriverObject, _In_ PUNICODE_STRING RegistryPath)
{
    PFLT_CONTEXT context;
    NTSTATUS status = FltRegisterFilter(DriverObject, &Registration, &gFilter);

    UNREFERENCED_PARAMETER(RegistryPath);
    if (!NT_SUCCESS(status)) {
        return status;
    }
    status = MakePort();
    if (NT_SUCCESS(status)) {
        DbgPrint("8 a volume context in paged pool: FltAllocateContext %08x\n", FltAllocateContext(gFilter, FLT_VOLUME_CONTEXT, sizeof(ULONG), PagedPool, &context));
        status = FltStartFiltering(gFilter);
        DbgPrint("9 once more: FltStartFiltering %08x\n", FltStartFiltering(gFilter));
        AskLocks();
        return status;
    }
    FltUnregisterFilter(gFilter);
    return status;
}
