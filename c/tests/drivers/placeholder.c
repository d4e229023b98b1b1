/* A filter of placeholders, in the manner of products: its provider has files made that are tagged and hold nothing. They are opened as reparse points by a create that is sent down again; the first
 * read waits in a cancel-safe queue until a work item has had the provider fill the file, whose tag is taken off then. Without a provider, or in the system's paging I/O, a read fails. */
#include <fltKernel.h>

#include "placeholder.h"

#define PLACEHOLDER_TAG 'hlaP'
#define IO_REPARSE_TAG_PLACEHOLDER 0x00000AB7

/* Of an instance: reads that wait. */
typedef struct _PLACEHOLDER_INSTANCE {
    PFLT_INSTANCE Instance;
    FLT_CALLBACK_DATA_QUEUE Queue;
    LIST_ENTRY Head;
    FAST_MUTEX Lock;
    LONG Workers;
} PLACEHOLDER_INSTANCE, *PPLACEHOLDER_INSTANCE;

/* Of a stream: one that isn't filled yet. */
typedef struct _PLACEHOLDER_STREAM {
    FAST_MUTEX Lock; /* whoever fills it has it */
    LONG IsEmpty;
} PLACEHOLDER_STREAM, *PPLACEHOLDER_STREAM;

static PFLT_FILTER gFilter;
static PFLT_PORT gServerPort, gClientPort;
static HANDLE volatile gProvider;
static PFLT_INSTANCE gInstance; /* on which placeholders are made: the first */
static FAST_MUTEX gInstanceLock;
static GUID gGuid = {0x5d3a1c0e, 0x77a4, 0x4a0b, {0x9b, 0x11, 0x20, 0x31, 0x42, 0x53, 0x64, 0x75}};

/* ---- Making one. */
static NTSTATUS PlaceholderMake(_In_ PFLT_INSTANCE Instance, _In_ PPLACEHOLDER_MAKE Make)
{
    FILE_END_OF_FILE_INFORMATION end = {.EndOfFile.QuadPart = Make->Size};
    WCHAR letters[PLACEHOLDER_LETTERS + 64];
    UNICODE_STRING path = {0, sizeof(letters), letters};
    OBJECT_ATTRIBUTES attributes;
    PFLT_VOLUME volume;
    IO_STATUS_BLOCK io;
    PFILE_OBJECT object;
    HANDLE file;
    NTSTATUS status = FltGetVolumeFromInstance(Instance, &volume);

    if (NT_SUCCESS(status)) {
        status = FltGetVolumeName(volume, &path, NULL);
        FltObjectDereference(volume);
    }
    if (NT_SUCCESS(status)) {
        status = RtlAppendUnicodeToString(&path, L"\\");
    }
    if (NT_SUCCESS(status)) {
        status = RtlAppendUnicodeToString(&path, Make->Name);
    }
    if (!NT_SUCCESS(status)) {
        return status;
    }
    InitializeObjectAttributes(&attributes, &path, OBJ_KERNEL_HANDLE | OBJ_CASE_INSENSITIVE, NULL, NULL);
    status = FltCreateFileEx(gFilter, Instance, &file, &object, FILE_GENERIC_READ | FILE_GENERIC_WRITE, &attributes, &io, NULL, FILE_ATTRIBUTE_NORMAL, FILE_SHARE_READ, FILE_CREATE,
                             FILE_NON_DIRECTORY_FILE | FILE_SYNCHRONOUS_IO_NONALERT, NULL, 0, 0);
    if (!NT_SUCCESS(status)) {
        return status;
    }
    status = FltSetInformationFile(Instance, object, &end, sizeof(end), FileEndOfFileInformation);
    if (NT_SUCCESS(status)) {
        status = FltTagFile(Instance, object, IO_REPARSE_TAG_PLACEHOLDER, &gGuid, &Make->Size, sizeof(Make->Size));
    }
    ObDereferenceObject(object);
    FltClose(file);
    return status;
}

/* ---- The provider. */
static NTSTATUS PlaceholderConnect(_In_ PFLT_PORT ClientPort, _In_opt_ PVOID ServerPortCookie, _In_reads_bytes_opt_(SizeOfContext) PVOID ConnectionContext, _In_ ULONG SizeOfContext,
                                   _Outptr_result_maybenull_ PVOID *ConnectionCookie)
{
    UNREFERENCED_PARAMETER(ServerPortCookie);
    UNREFERENCED_PARAMETER(ConnectionContext);
    UNREFERENCED_PARAMETER(SizeOfContext);
    *ConnectionCookie = NULL;
    gClientPort = ClientPort;
    InterlockedExchangePointer((PVOID volatile *)&gProvider, PsGetCurrentProcessId());
    return STATUS_SUCCESS;
}

static VOID PlaceholderDisconnect(_In_opt_ PVOID ConnectionCookie)
{
    UNREFERENCED_PARAMETER(ConnectionCookie);
    InterlockedExchangePointer((PVOID volatile *)&gProvider, NULL);
    FltCloseClientPort(gFilter, &gClientPort);
}

static NTSTATUS PlaceholderMessage(_In_opt_ PVOID PortCookie, _In_reads_bytes_opt_(InputBufferLength) PVOID InputBuffer, _In_ ULONG InputBufferLength,
                                   _Out_writes_bytes_to_opt_(OutputBufferLength, *ReturnOutputBufferLength) PVOID OutputBuffer, _In_ ULONG OutputBufferLength, _Out_ PULONG ReturnOutputBufferLength)
{
    PLACEHOLDER_MAKE make;
    PFLT_INSTANCE instance;
    NTSTATUS status = STATUS_SUCCESS;

    UNREFERENCED_PARAMETER(PortCookie);
    UNREFERENCED_PARAMETER(OutputBuffer);
    UNREFERENCED_PARAMETER(OutputBufferLength);
    *ReturnOutputBufferLength = 0;
    if (InputBuffer == NULL || InputBufferLength < sizeof(make)) {
        return STATUS_INVALID_PARAMETER;
    }
    try {
        RtlCopyMemory(&make, InputBuffer, sizeof(make));
    } except (EXCEPTION_EXECUTE_HANDLER) {
        status = GetExceptionCode();
    }
    if (!NT_SUCCESS(status)) {
        return status;
    }
    make.Name[PLACEHOLDER_LETTERS - 1] = 0;
    ExAcquireFastMutex(&gInstanceLock);
    instance = gInstance != NULL && NT_SUCCESS(FltObjectReference(gInstance)) ? gInstance : NULL;
    ExReleaseFastMutex(&gInstanceLock);
    if (instance == NULL) {
        return STATUS_FLT_INSTANCE_NOT_FOUND;
    }
    status = PlaceholderMake(instance, &make);
    FltObjectDereference(instance);
    return status;
}

/* ---- Filling one. */
static NTSTATUS PlaceholderFill(_In_ PFLT_CALLBACK_DATA Data, _In_ PFLT_INSTANCE Instance, _In_ PFILE_OBJECT File)
{
    PLACEHOLDER_WANTED wanted = {0};
    PPLACEHOLDER_CONTENT content = ExAllocatePoolZero(PagedPool, sizeof(PLACEHOLDER_CONTENT), PLACEHOLDER_TAG);
    FILE_STANDARD_INFORMATION standard;
    LARGE_INTEGER offset = {.QuadPart = 0}, second = {.QuadPart = -10 * 1000 * 1000};
    PFLT_FILE_NAME_INFORMATION name;
    ULONG length = sizeof(PLACEHOLDER_CONTENT), written;
    NTSTATUS status;

    if (content == NULL) {
        return STATUS_INSUFFICIENT_RESOURCES;
    }
    status = FltQueryInformationFile(Instance, File, &standard, sizeof(standard), FileStandardInformation, NULL);
    if (NT_SUCCESS(status)) {
        wanted.Size = (ULONG)standard.EndOfFile.QuadPart;
        status = FltGetFileNameInformation(Data, FLT_FILE_NAME_NORMALIZED | FLT_FILE_NAME_QUERY_DEFAULT, &name);
    }
    if (NT_SUCCESS(status)) {
        FltParseFileNameInformation(name);
        RtlCopyMemory(wanted.Name, name->FinalComponent.Buffer, min(name->FinalComponent.Length, sizeof(wanted.Name) - sizeof(WCHAR)));
        FltReleaseFileNameInformation(name);
        status = FltSendMessage(gFilter, &gClientPort, &wanted, sizeof(wanted), content, &length, &second);
        if (status != STATUS_SUCCESS || length < FIELD_OFFSET(PLACEHOLDER_CONTENT, Bytes) || content->Length == 0 || content->Length > PLACEHOLDER_MOST) {
            status = status == STATUS_SUCCESS ? STATUS_CLOUD_FILE_UNSUCCESSFUL : STATUS_CLOUD_FILE_PROVIDER_NOT_RUNNING;
        }
    }
    if (NT_SUCCESS(status)) {
        status = FltWriteFile(Instance, File, &offset, content->Length, content->Bytes, FLTFL_IO_OPERATION_DO_NOT_UPDATE_BYTE_OFFSET, &written, NULL, NULL);
    }
    if (NT_SUCCESS(status)) {
        status = FltUntagFile(Instance, File, IO_REPARSE_TAG_PLACEHOLDER, &gGuid);
    }
    ExFreePoolWithTag(content, PLACEHOLDER_TAG);
    return status;
}

/* A read that waited goes on, or fails. Whoever comes second to a stream finds it filled. */
static VOID PlaceholderServe(_In_ PFLT_CALLBACK_DATA Data)
{
    PFLT_INSTANCE instance = Data->Iopb->TargetInstance;
    PFILE_OBJECT file = Data->Iopb->TargetFileObject;
    PFLT_CALLBACK_DATA_QUEUE_IO_CONTEXT context = Data->QueueContext[0];
    PPLACEHOLDER_STREAM stream;
    NTSTATUS status = FltGetStreamContext(instance, file, (PFLT_CONTEXT *)&stream);

    if (NT_SUCCESS(status)) {
        if (InterlockedCompareExchange(&stream->IsEmpty, FALSE, FALSE)) {
            status = PlaceholderFill(Data, instance, file);
            if (NT_SUCCESS(status)) {
                InterlockedExchange(&stream->IsEmpty, FALSE);
            }
        }
        FltReleaseContext(stream);
    }
    ExFreePoolWithTag(context, PLACEHOLDER_TAG);
    if (NT_SUCCESS(status)) {
        FltCompletePendedPreOperation(Data, FLT_PREOP_SUCCESS_NO_CALLBACK, NULL);
        return;
    }
    Data->IoStatus.Status = status;
    Data->IoStatus.Information = 0;
    FltCompletePendedPreOperation(Data, FLT_PREOP_COMPLETE, NULL);
}

/* One at a time empties the queue. */
static VOID PlaceholderWork(_In_ PFLT_GENERIC_WORKITEM FltWorkItem, _In_ PVOID FltObject, _In_opt_ PVOID Context)
{
    PPLACEHOLDER_INSTANCE kept = Context;
    PFLT_CALLBACK_DATA data;

    UNREFERENCED_PARAMETER(FltObject);
    do {
        while ((data = FltCbdqRemoveNextIo(&kept->Queue, NULL)) != NULL) {
            PlaceholderServe(data);
        }
    } while (InterlockedDecrement(&kept->Workers) > 0);
    FltReleaseContext(kept);
    FltFreeGenericWorkItem(FltWorkItem);
}

static VOID PlaceholderStart(_In_ PPLACEHOLDER_INSTANCE Kept)
{
    PFLT_GENERIC_WORKITEM item;

    if (InterlockedIncrement(&Kept->Workers) != 1) {
        return; /* the one that runs looks once more */
    }
    item = FltAllocateGenericWorkItem();
    if (item != NULL) {
        FltReferenceContext(Kept);
        if (NT_SUCCESS(FltQueueGenericWorkItem(item, Kept->Instance, PlaceholderWork, DelayedWorkQueue, Kept))) {
            return;
        }
        FltReleaseContext(Kept);
        FltFreeGenericWorkItem(item);
    }
    InterlockedExchange(&Kept->Workers, 0);
    while ((item = (PFLT_GENERIC_WORKITEM)FltCbdqRemoveNextIo(&Kept->Queue, NULL)) != NULL) {
        PFLT_CALLBACK_DATA data = (PFLT_CALLBACK_DATA)item;

        ExFreePoolWithTag(data->QueueContext[0], PLACEHOLDER_TAG);
        data->IoStatus.Status = STATUS_INSUFFICIENT_RESOURCES;
        data->IoStatus.Information = 0;
        FltCompletePendedPreOperation(data, FLT_PREOP_COMPLETE, NULL);
    }
}

/* ---- The queue. */
static VOID PlaceholderAcquire(_In_ PFLT_CALLBACK_DATA_QUEUE Queue, _Out_ PKIRQL Irql)
{
    *Irql = PASSIVE_LEVEL;
    ExAcquireFastMutex(&CONTAINING_RECORD(Queue, PLACEHOLDER_INSTANCE, Queue)->Lock);
}

static VOID PlaceholderRelease(_In_ PFLT_CALLBACK_DATA_QUEUE Queue, _In_ KIRQL Irql)
{
    UNREFERENCED_PARAMETER(Irql);
    ExReleaseFastMutex(&CONTAINING_RECORD(Queue, PLACEHOLDER_INSTANCE, Queue)->Lock);
}

static NTSTATUS PlaceholderInsert(_In_ PFLT_CALLBACK_DATA_QUEUE Queue, _In_ PFLT_CALLBACK_DATA Data, _In_opt_ PVOID Context)
{
    UNREFERENCED_PARAMETER(Context);
    InsertTailList(&CONTAINING_RECORD(Queue, PLACEHOLDER_INSTANCE, Queue)->Head, &Data->QueueLinks);
    return STATUS_SUCCESS;
}

static VOID PlaceholderTakeOut(_In_ PFLT_CALLBACK_DATA_QUEUE Queue, _In_ PFLT_CALLBACK_DATA Data)
{
    UNREFERENCED_PARAMETER(Queue);
    RemoveEntryList(&Data->QueueLinks);
}

static PFLT_CALLBACK_DATA PlaceholderPeek(_In_ PFLT_CALLBACK_DATA_QUEUE Queue, _In_opt_ PFLT_CALLBACK_DATA Data, _In_opt_ PVOID PeekContext)
{
    PPLACEHOLDER_INSTANCE kept = CONTAINING_RECORD(Queue, PLACEHOLDER_INSTANCE, Queue);
    PLIST_ENTRY next = Data == NULL ? kept->Head.Flink : Data->QueueLinks.Flink;

    UNREFERENCED_PARAMETER(PeekContext);
    return next == &kept->Head ? NULL : CONTAINING_RECORD(next, FLT_CALLBACK_DATA, QueueLinks);
}

static VOID PlaceholderCancelled(_In_ PFLT_CALLBACK_DATA_QUEUE Queue, _Inout_ PFLT_CALLBACK_DATA Data)
{
    UNREFERENCED_PARAMETER(Queue);
    ExFreePoolWithTag(Data->QueueContext[0], PLACEHOLDER_TAG);
    Data->IoStatus.Status = STATUS_CANCELLED;
    Data->IoStatus.Information = 0;
    FltCompletePendedPreOperation(Data, FLT_PREOP_COMPLETE, NULL);
}

/* ---- Creates: one that came upon a placeholder opens that itself. */
static NTSTATUS PlaceholderMark(_In_ PCFLT_RELATED_OBJECTS FltObjects)
{
    PPLACEHOLDER_STREAM stream;
    NTSTATUS status = FltAllocateContext(gFilter, FLT_STREAM_CONTEXT, sizeof(PLACEHOLDER_STREAM), NonPagedPool, (PFLT_CONTEXT *)&stream);

    if (!NT_SUCCESS(status)) {
        return status;
    }
    ExInitializeFastMutex(&stream->Lock);
    stream->IsEmpty = TRUE;
    status = FltSetStreamContext(FltObjects->Instance, FltObjects->FileObject, FLT_SET_CONTEXT_KEEP_IF_EXISTS, stream, NULL);
    FltReleaseContext(stream);
    return status == STATUS_FLT_CONTEXT_ALREADY_DEFINED ? STATUS_SUCCESS : status;
}

static FLT_PREOP_CALLBACK_STATUS PlaceholderPreCreate(_Inout_ PFLT_CALLBACK_DATA Data, _In_ PCFLT_RELATED_OBJECTS FltObjects, _Flt_CompletionContext_Outptr_ PVOID *CompletionContext)
{
    UNREFERENCED_PARAMETER(FltObjects);
    UNREFERENCED_PARAMETER(CompletionContext);
    PAGED_CODE();
    return FlagOn(Data->Iopb->Parameters.Create.Options, FILE_OPEN_REPARSE_POINT) ? FLT_PREOP_SUCCESS_NO_CALLBACK : FLT_PREOP_SYNCHRONIZE;
}

static FLT_POSTOP_CALLBACK_STATUS PlaceholderPostCreate(_Inout_ PFLT_CALLBACK_DATA Data, _In_ PCFLT_RELATED_OBJECTS FltObjects, _In_opt_ PVOID CompletionContext, _In_ FLT_POST_OPERATION_FLAGS Flags)
{
    NTSTATUS status;

    UNREFERENCED_PARAMETER(CompletionContext);
    if (FlagOn(Flags, FLTFL_POST_OPERATION_DRAINING) || Data->IoStatus.Status != STATUS_REPARSE || Data->TagData == NULL || Data->TagData->FileTag != IO_REPARSE_TAG_PLACEHOLDER ||
        !RtlEqualMemory(&Data->TagData->GenericGUIDReparseBuffer.TagGuid, &gGuid, sizeof(gGuid))) {
        return FLT_POSTOP_FINISHED_PROCESSING;
    }
    SetFlag(Data->Iopb->Parameters.Create.Options, FILE_OPEN_REPARSE_POINT);
    FltSetCallbackDataDirty(Data);
    FltReissueSynchronousIo(FltObjects->Instance, Data);
    if (NT_SUCCESS(Data->IoStatus.Status)) {
        status = PlaceholderMark(FltObjects);
        if (!NT_SUCCESS(status)) {
            FltCancelFileOpen(FltObjects->Instance, FltObjects->FileObject);
            Data->IoStatus.Status = status;
            Data->IoStatus.Information = 0;
        }
    }
    return FLT_POSTOP_FINISHED_PROCESSING;
}

/* ---- Reads. */
static FLT_PREOP_CALLBACK_STATUS PlaceholderPreRead(_Inout_ PFLT_CALLBACK_DATA Data, _In_ PCFLT_RELATED_OBJECTS FltObjects, _Flt_CompletionContext_Outptr_ PVOID *CompletionContext)
{
    PFLT_CALLBACK_DATA_QUEUE_IO_CONTEXT context = NULL;
    PPLACEHOLDER_INSTANCE kept;
    PPLACEHOLDER_STREAM stream;
    BOOLEAN isEmpty;
    NTSTATUS status = STATUS_CLOUD_FILE_PROVIDER_NOT_RUNNING;

    UNREFERENCED_PARAMETER(CompletionContext);
    if (!NT_SUCCESS(FltGetStreamContext(FltObjects->Instance, FltObjects->FileObject, (PFLT_CONTEXT *)&stream))) {
        return FLT_PREOP_SUCCESS_NO_CALLBACK;
    }
    isEmpty = InterlockedCompareExchange(&stream->IsEmpty, FALSE, FALSE) != FALSE;
    FltReleaseContext(stream);
    if (!isEmpty) {
        return FLT_PREOP_SUCCESS_NO_CALLBACK;
    }
    if (!FLT_IS_IRP_OPERATION(Data)) {
        return FLT_PREOP_DISALLOW_FASTIO;
    }
    if (gProvider != NULL && !FlagOn(Data->Iopb->IrpFlags, IRP_PAGING_IO) && NT_SUCCESS(FltGetInstanceContext(FltObjects->Instance, (PFLT_CONTEXT *)&kept))) {
        context = ExAllocatePoolZero(NonPagedPoolNx, sizeof(*context), PLACEHOLDER_TAG);
        status = STATUS_INSUFFICIENT_RESOURCES;
        if (context != NULL) {
            Data->QueueContext[0] = context;
            status = FltCbdqInsertIo(&kept->Queue, Data, context, NULL);
            if (NT_SUCCESS(status)) {
                PlaceholderStart(kept);
            } else {
                ExFreePoolWithTag(context, PLACEHOLDER_TAG);
            }
        }
        FltReleaseContext(kept);
        if (NT_SUCCESS(status)) {
            return FLT_PREOP_PENDING;
        }
    }
    Data->IoStatus.Status = status;
    Data->IoStatus.Information = 0;
    return FLT_PREOP_COMPLETE;
}

/* ---- Coming and going. */
static NTSTATUS PlaceholderSetup(_In_ PCFLT_RELATED_OBJECTS FltObjects, _In_ FLT_INSTANCE_SETUP_FLAGS Flags, _In_ DEVICE_TYPE VolumeDeviceType, _In_ FLT_FILESYSTEM_TYPE VolumeFilesystemType)
{
    PPLACEHOLDER_INSTANCE kept;
    NTSTATUS status;

    UNREFERENCED_PARAMETER(Flags);
    UNREFERENCED_PARAMETER(VolumeDeviceType);
    if (VolumeFilesystemType != FLT_FSTYPE_NTFS) {
        return STATUS_FLT_DO_NOT_ATTACH;
    }
    status = FltAllocateContext(gFilter, FLT_INSTANCE_CONTEXT, sizeof(PLACEHOLDER_INSTANCE), NonPagedPool, (PFLT_CONTEXT *)&kept);
    if (!NT_SUCCESS(status)) {
        return status;
    }
    kept->Instance = FltObjects->Instance;
    kept->Workers = 0;
    InitializeListHead(&kept->Head);
    ExInitializeFastMutex(&kept->Lock);
    status = FltCbdqInitialize(FltObjects->Instance, &kept->Queue, PlaceholderInsert, PlaceholderTakeOut, PlaceholderPeek, PlaceholderAcquire, PlaceholderRelease, PlaceholderCancelled);
    if (NT_SUCCESS(status)) {
        status = FltSetInstanceContext(FltObjects->Instance, FLT_SET_CONTEXT_KEEP_IF_EXISTS, kept, NULL);
    }
    FltReleaseContext(kept);
    if (NT_SUCCESS(status)) {
        ExAcquireFastMutex(&gInstanceLock);
        gInstance = gInstance == NULL ? FltObjects->Instance : gInstance;
        ExReleaseFastMutex(&gInstanceLock);
    }
    return status;
}

static NTSTATUS PlaceholderQueryTeardown(_In_ PCFLT_RELATED_OBJECTS FltObjects, _In_ FLT_INSTANCE_QUERY_TEARDOWN_FLAGS Flags)
{
    UNREFERENCED_PARAMETER(FltObjects);
    UNREFERENCED_PARAMETER(Flags);
    return STATUS_SUCCESS;
}

static VOID PlaceholderTeardownStart(_In_ PCFLT_RELATED_OBJECTS FltObjects, _In_ FLT_INSTANCE_TEARDOWN_FLAGS Reason)
{
    PPLACEHOLDER_INSTANCE kept;
    PFLT_CALLBACK_DATA data;

    UNREFERENCED_PARAMETER(Reason);
    ExAcquireFastMutex(&gInstanceLock);
    gInstance = gInstance == FltObjects->Instance ? NULL : gInstance;
    ExReleaseFastMutex(&gInstanceLock);
    if (!NT_SUCCESS(FltGetInstanceContext(FltObjects->Instance, (PFLT_CONTEXT *)&kept))) {
        return;
    }
    FltCbdqDisable(&kept->Queue);
    while ((data = FltCbdqRemoveNextIo(&kept->Queue, NULL)) != NULL) {
        PlaceholderCancelled(&kept->Queue, data);
    }
    FltReleaseContext(kept);
}

static NTSTATUS PlaceholderUnload(_In_ FLT_FILTER_UNLOAD_FLAGS Flags)
{
    UNREFERENCED_PARAMETER(Flags);
    FltCloseCommunicationPort(gServerPort);
    FltUnregisterFilter(gFilter);
    return STATUS_SUCCESS;
}

static CONST FLT_OPERATION_REGISTRATION Operations[] = {{IRP_MJ_CREATE, 0, PlaceholderPreCreate, PlaceholderPostCreate}, {IRP_MJ_READ, 0, PlaceholderPreRead, NULL}, {IRP_MJ_OPERATION_END}};
static CONST FLT_CONTEXT_REGISTRATION Contexts[] = {{FLT_INSTANCE_CONTEXT, 0, NULL, sizeof(PLACEHOLDER_INSTANCE), PLACEHOLDER_TAG},
                                                    {FLT_STREAM_CONTEXT, 0, NULL, sizeof(PLACEHOLDER_STREAM), PLACEHOLDER_TAG},
                                                    {FLT_CONTEXT_END}};
static CONST FLT_REGISTRATION Registration = {.Size = sizeof(FLT_REGISTRATION),
                                              .Version = FLT_REGISTRATION_VERSION,
                                              .ContextRegistration = Contexts,
                                              .OperationRegistration = Operations,
                                              .FilterUnloadCallback = PlaceholderUnload,
                                              .InstanceSetupCallback = PlaceholderSetup,
                                              .InstanceQueryTeardownCallback = PlaceholderQueryTeardown,
                                              .InstanceTeardownStartCallback = PlaceholderTeardownStart};

NTSTATUS DriverEntry(_In_ PDRIVER_OBJECT DriverObject, _In_ PUNICODE_STRING RegistryPath)
{
    UNICODE_STRING name = RTL_CONSTANT_STRING(PLACEHOLDER_PORT);
    PSECURITY_DESCRIPTOR descriptor;
    OBJECT_ATTRIBUTES attributes;
    NTSTATUS status;

    UNREFERENCED_PARAMETER(RegistryPath);
    ExInitializeFastMutex(&gInstanceLock);
    status = FltRegisterFilter(DriverObject, &Registration, &gFilter);
    if (!NT_SUCCESS(status)) {
        return status;
    }
    status = FltBuildDefaultSecurityDescriptor(&descriptor, FLT_PORT_ALL_ACCESS);
    if (NT_SUCCESS(status)) {
        InitializeObjectAttributes(&attributes, &name, OBJ_KERNEL_HANDLE | OBJ_CASE_INSENSITIVE, NULL, descriptor);
        status = FltCreateCommunicationPort(gFilter, &gServerPort, &attributes, NULL, PlaceholderConnect, PlaceholderDisconnect, PlaceholderMessage, 1);
        FltFreeSecurityDescriptor(descriptor);
    }
    if (NT_SUCCESS(status)) {
        status = FltStartFiltering(gFilter);
        if (!NT_SUCCESS(status)) {
            FltCloseCommunicationPort(gServerPort);
        }
    }
    if (!NT_SUCCESS(status)) {
        FltUnregisterFilter(gFilter);
    }
    return status;
}
