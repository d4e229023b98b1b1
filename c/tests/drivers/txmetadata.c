/* Keeps a file of its own on each volume, in which it counts the files that were made: those of a transaction as that is committed. */
#include "txstate.h"

typedef struct _VOLUME_STATE {
    HANDLE Handle;
    PFILE_OBJECT File;
    ULONG Count;
} VOLUME_STATE, *PVOLUME_STATE;

static PFLT_FILTER filter;

static NTSTATUS Setup(PCFLT_RELATED_OBJECTS FltObjects, FLT_INSTANCE_SETUP_FLAGS Flags, DEVICE_TYPE VolumeDeviceType, FLT_FILESYSTEM_TYPE VolumeFilesystemType)
{
    UNICODE_STRING name = RTL_CONSTANT_STRING(L"\\Device\\v0\\metadata");
    OBJECT_ATTRIBUTES attributes;
    IO_STATUS_BLOCK block;
    PVOLUME_STATE state;
    NTSTATUS status = FltAllocateContext(filter, FLT_INSTANCE_CONTEXT, sizeof *state, NonPagedPool, (PFLT_CONTEXT *)&state);
    UNREFERENCED_PARAMETER(Flags);
    UNREFERENCED_PARAMETER(VolumeDeviceType);
    UNREFERENCED_PARAMETER(VolumeFilesystemType);
    if (!NT_SUCCESS(status))
        return STATUS_FLT_DO_NOT_ATTACH;
    RtlZeroMemory(state, sizeof *state);
    InitializeObjectAttributes(&attributes, &name, OBJ_KERNEL_HANDLE | OBJ_CASE_INSENSITIVE, NULL, NULL);
    status = FltCreateFileEx(filter, FltObjects->Instance, &state->Handle, &state->File, FILE_READ_DATA | FILE_WRITE_DATA | SYNCHRONIZE, &attributes, &block, NULL, FILE_ATTRIBUTE_NORMAL,
                             FILE_SHARE_READ, FILE_OPEN_IF, FILE_SYNCHRONOUS_IO_NONALERT | FILE_NON_DIRECTORY_FILE, NULL, 0, 0);
    if (NT_SUCCESS(status))
        status = FltSetInstanceContext(FltObjects->Instance, FLT_SET_CONTEXT_KEEP_IF_EXISTS, state, NULL);
    FltReleaseContext(state);
    return NT_SUCCESS(status) ? STATUS_SUCCESS : STATUS_FLT_DO_NOT_ATTACH;
}

static NTSTATUS QueryTeardown(PCFLT_RELATED_OBJECTS FltObjects, FLT_INSTANCE_QUERY_TEARDOWN_FLAGS Flags)
{
    UNREFERENCED_PARAMETER(FltObjects);
    UNREFERENCED_PARAMETER(Flags);
    return STATUS_SUCCESS;
}

static VOID TeardownStart(PCFLT_RELATED_OBJECTS FltObjects, FLT_INSTANCE_TEARDOWN_FLAGS Reason)
{
    PVOLUME_STATE state;
    UNREFERENCED_PARAMETER(Reason);
    if (!NT_SUCCESS(FltGetInstanceContext(FltObjects->Instance, (PFLT_CONTEXT *)&state)))
        return;
    ObDereferenceObject(state->File);
    FltClose(state->Handle);
    FltReleaseContext(state);
}

static VOID Add(PFLT_INSTANCE Instance, ULONG Count)
{
    LARGE_INTEGER begin = {0};
    PVOLUME_STATE state;
    NTSTATUS status;
    if (!Count || !NT_SUCCESS(FltGetInstanceContext(Instance, (PFLT_CONTEXT *)&state)))
        return;
    state->Count += Count;
    status = FltWriteFile(Instance, state->File, &begin, sizeof state->Count, &state->Count, 0, NULL, NULL, NULL);
    DbgPrint("txmetadata: %lu files, 0x%08x\n", state->Count, status);
    FltReleaseContext(state);
}

static FLT_POSTOP_CALLBACK_STATUS PostCreate(PFLT_CALLBACK_DATA Data, PCFLT_RELATED_OBJECTS FltObjects, PVOID CompletionContext, FLT_POST_OPERATION_FLAGS Flags)
{
    PTX_STATE state;
    UNREFERENCED_PARAMETER(CompletionContext);
    if (Flags & FLTFL_POST_OPERATION_DRAINING || !NT_SUCCESS(Data->IoStatus.Status) || Data->IoStatus.Information != FILE_CREATED)
        return FLT_POSTOP_FINISHED_PROCESSING;
    if (!FltObjects->Transaction) {
        Add(FltObjects->Instance, 1);
    } else if (NT_SUCCESS(TxState(filter, FltObjects, TRANSACTION_NOTIFY_COMMIT | TRANSACTION_NOTIFY_ROLLBACK, &state))) {
        InterlockedIncrement((PLONG)&state->Count);
        FltReleaseContext(state);
    }
    return FLT_POSTOP_FINISHED_PROCESSING;
}

static NTSTATUS Notified(PCFLT_RELATED_OBJECTS FltObjects, PFLT_CONTEXT TransactionContext, ULONG NotificationMask)
{
    if (NotificationMask == TRANSACTION_NOTIFY_COMMIT)
        Add(FltObjects->Instance, ((PTX_STATE)TransactionContext)->Count);
    else
        DbgPrint("txmetadata: %lu files aren't made\n", ((PTX_STATE)TransactionContext)->Count);
    return STATUS_SUCCESS;
}

static NTSTATUS Unload(FLT_FILTER_UNLOAD_FLAGS Flags)
{
    UNREFERENCED_PARAMETER(Flags);
    FltUnregisterFilter(filter);
    return STATUS_SUCCESS;
}

static const FLT_OPERATION_REGISTRATION callbacks[] = {{IRP_MJ_CREATE, 0, NULL, PostCreate, NULL}, {IRP_MJ_OPERATION_END}};
static const FLT_CONTEXT_REGISTRATION contexts[] = {{FLT_TRANSACTION_CONTEXT, 0, NULL, sizeof(TX_STATE), 'xtnI'}, {FLT_INSTANCE_CONTEXT, 0, NULL, sizeof(VOLUME_STATE), 'muoV'}, {FLT_CONTEXT_END}};
static const FLT_REGISTRATION registration = {.Size = sizeof(FLT_REGISTRATION),
                                              .Version = FLT_REGISTRATION_VERSION,
                                              .ContextRegistration = contexts,
                                              .OperationRegistration = callbacks,
                                              .FilterUnloadCallback = Unload,
                                              .InstanceSetupCallback = Setup,
                                              .InstanceQueryTeardownCallback = QueryTeardown,
                                              .InstanceTeardownStartCallback = TeardownStart,
                                              .TransactionNotificationCallback = Notified};

NTSTATUS DriverEntry(PDRIVER_OBJECT DriverObject, PUNICODE_STRING RegistryPath)
{
    UNREFERENCED_PARAMETER(RegistryPath);
    return TxBegin(DriverObject, &registration, &filter);
}
