/* A backup: a file that was written is copied into the folder \backup of its volume once its handle is cleaned up, by a thread of the driver's own, which reads and writes below the
 * filter. The thread has a queue of names; each entry keeps its instance by rundown protection, so that the teardown waits for what is queued. */
#include <fltKernel.h>

#define BACKUP_TAG 'pkcB'
#define BACKUP_PART 4096

typedef struct _BACKUP_INSTANCE_CONTEXT {
    EX_RUNDOWN_REF Queued;
} BACKUP_INSTANCE_CONTEXT, *PBACKUP_INSTANCE_CONTEXT;

/* That it is there says that something was written by the handle. */
typedef struct _BACKUP_HANDLE_CONTEXT {
    LONG Writes;
} BACKUP_HANDLE_CONTEXT, *PBACKUP_HANDLE_CONTEXT;

typedef struct _BACKUP_ENTRY {
    LIST_ENTRY Links;
    PFLT_INSTANCE Instance;
    PBACKUP_INSTANCE_CONTEXT Context;
    PFLT_FILE_NAME_INFORMATION Name;
} BACKUP_ENTRY, *PBACKUP_ENTRY;

PFLT_FILTER gFilterHandle;
static FAST_MUTEX gLock; /* guards the queue */
static LIST_ENTRY gQueue;
static KSEMAPHORE gWork; /* as many as there are entries, and one to stop */
static PETHREAD gThread;
static const UNICODE_STRING gFolder = RTL_CONSTANT_STRING(L"\\backup\\");

/* ---- The thread. */
static NTSTATUS BackupOpen(_In_ PBACKUP_ENTRY Entry, _In_ PUNICODE_STRING Name, _In_ ACCESS_MASK Access, _In_ ULONG Disposition, _Out_ PHANDLE Handle,
                           _Out_ PFILE_OBJECT *File)
{
    OBJECT_ATTRIBUTES attributes;
    IO_STATUS_BLOCK io;

    InitializeObjectAttributes(&attributes, Name, OBJ_KERNEL_HANDLE | OBJ_CASE_INSENSITIVE, NULL, NULL);
    return FltCreateFileEx(gFilterHandle, Entry->Instance, Handle, File, Access, &attributes, &io, NULL, FILE_ATTRIBUTE_NORMAL, FILE_SHARE_VALID_FLAGS,
                           Disposition, FILE_NON_DIRECTORY_FILE | FILE_SYNCHRONOUS_IO_NONALERT, NULL, 0, IO_IGNORE_SHARE_ACCESS_CHECK);
}

static NTSTATUS BackupCopy(_In_ PFLT_INSTANCE Instance, _In_ PFILE_OBJECT From, _In_ PFILE_OBJECT To, _Out_ PULONG Copied)
{
    NTSTATUS status = STATUS_SUCCESS;
    LARGE_INTEGER offset;
    ULONG done = BACKUP_PART;
    PVOID part = ExAllocatePoolWithTag(PagedPool, BACKUP_PART, BACKUP_TAG);

    *Copied = 0;
    if (part == NULL) {
        return STATUS_INSUFFICIENT_RESOURCES;
    }
    while (NT_SUCCESS(status) && done == BACKUP_PART) {
        offset.QuadPart = *Copied;
        status = FltReadFile(Instance, From, &offset, BACKUP_PART, part, FLTFL_IO_OPERATION_DO_NOT_UPDATE_BYTE_OFFSET, &done, NULL, NULL);
        if (NT_SUCCESS(status)) {
            status = FltWriteFile(Instance, To, &offset, done, part, FLTFL_IO_OPERATION_DO_NOT_UPDATE_BYTE_OFFSET, &done, NULL, NULL);
            *Copied += done;
        }
    }
    ExFreePoolWithTag(part, BACKUP_TAG);
    return status == STATUS_END_OF_FILE ? STATUS_SUCCESS : status;
}

static NTSTATUS BackupInto(_In_ PBACKUP_ENTRY Entry, _In_ PUNICODE_STRING Name, _Out_ PULONG Copied)
{
    HANDLE from, to;
    PFILE_OBJECT fromFile, toFile;
    NTSTATUS status = BackupOpen(Entry, &Entry->Name->Name, FILE_GENERIC_READ, FILE_OPEN, &from, &fromFile);

    *Copied = 0;
    if (!NT_SUCCESS(status)) {
        return status;
    }
    status = BackupOpen(Entry, Name, FILE_GENERIC_WRITE, FILE_OVERWRITE_IF, &to, &toFile);
    if (NT_SUCCESS(status)) {
        status = BackupCopy(Entry->Instance, fromFile, toFile, Copied);
        FltClose(to);
        ObDereferenceObject(toFile);
    }
    FltClose(from);
    ObDereferenceObject(fromFile);
    return status;
}

/* Its name is that of the file, below the folder of copies on the same volume. */
static VOID BackupOne(_In_ PBACKUP_ENTRY Entry)
{
    UNICODE_STRING name, rest = Entry->Name->Name;
    ULONG copied = 0;
    NTSTATUS status = STATUS_INSUFFICIENT_RESOURCES;

    rest.Buffer += (Entry->Name->Volume.Length + sizeof(WCHAR)) / sizeof(WCHAR);
    rest.Length -= Entry->Name->Volume.Length + sizeof(WCHAR);
    name.Length = 0;
    name.MaximumLength = Entry->Name->Volume.Length + gFolder.Length + rest.Length;
    name.Buffer = ExAllocatePoolWithTag(PagedPool, name.MaximumLength, BACKUP_TAG);
    if (name.Buffer != NULL) {
        RtlCopyUnicodeString(&name, &Entry->Name->Volume);
        RtlAppendUnicodeStringToString(&name, &gFolder);
        RtlAppendUnicodeStringToString(&name, &rest);
        status = BackupInto(Entry, &name, &copied);
        ExFreePoolWithTag(name.Buffer, BACKUP_TAG);
    }
    DbgPrint("Backup: %wZ: 0x%08x, %u bytes\n", &Entry->Name->Name, status, copied);
}

static VOID BackupForget(_In_ PBACKUP_ENTRY Entry)
{
    FltReleaseFileNameInformation(Entry->Name);
    ExReleaseRundownProtection(&Entry->Context->Queued);
    FltReleaseContext(Entry->Context);
    ExFreePoolWithTag(Entry, BACKUP_TAG);
}

static PBACKUP_ENTRY BackupNext(VOID)
{
    PBACKUP_ENTRY entry = NULL;

    ExAcquireFastMutex(&gLock);
    if (!IsListEmpty(&gQueue)) {
        entry = CONTAINING_RECORD(RemoveHeadList(&gQueue), BACKUP_ENTRY, Links);
    }
    ExReleaseFastMutex(&gLock);
    return entry;
}

static VOID BackupThread(_In_ PVOID Context)
{
    PBACKUP_ENTRY entry;

    UNREFERENCED_PARAMETER(Context);
    for (;;) {
        KeWaitForSingleObject(&gWork, Executive, KernelMode, FALSE, NULL);
        entry = BackupNext();
        if (entry == NULL) {
            break;
        }
        BackupOne(entry);
        BackupForget(entry);
    }
    PsTerminateSystemThread(STATUS_SUCCESS);
}

static NTSTATUS BackupStart(VOID)
{
    HANDLE handle;
    NTSTATUS status = PsCreateSystemThread(&handle, THREAD_ALL_ACCESS, NULL, NULL, NULL, BackupThread, NULL);

    if (!NT_SUCCESS(status)) {
        return status;
    }
    status = ObReferenceObjectByHandle(handle, THREAD_ALL_ACCESS, *PsThreadType, KernelMode, (PVOID *)&gThread, NULL);
    ZwClose(handle);
    return status;
}

static VOID BackupStop(VOID)
{
    KeReleaseSemaphore(&gWork, IO_NO_INCREMENT, 1, FALSE);
    KeWaitForSingleObject(gThread, Executive, KernelMode, FALSE, NULL);
    ObDereferenceObject(gThread);
}

/* ---- Callbacks. */
static FLT_PREOP_CALLBACK_STATUS BackupPreWrite(_Inout_ PFLT_CALLBACK_DATA Data, _In_ PCFLT_RELATED_OBJECTS FltObjects, _Flt_CompletionContext_Outptr_ PVOID *CompletionContext)
{
    PBACKUP_HANDLE_CONTEXT context, old;
    NTSTATUS status = FltGetStreamHandleContext(FltObjects->Instance, FltObjects->FileObject, (PFLT_CONTEXT *)&context);

    UNREFERENCED_PARAMETER(Data);
    UNREFERENCED_PARAMETER(CompletionContext);
    if (!NT_SUCCESS(status)) {
        status = FltAllocateContext(gFilterHandle, FLT_STREAMHANDLE_CONTEXT, sizeof(BACKUP_HANDLE_CONTEXT), NonPagedPool, (PFLT_CONTEXT *)&context);
        if (!NT_SUCCESS(status)) {
            return FLT_PREOP_SUCCESS_NO_CALLBACK;
        }
        context->Writes = 0;
        status = FltSetStreamHandleContext(FltObjects->Instance, FltObjects->FileObject, FLT_SET_CONTEXT_KEEP_IF_EXISTS, context, (PFLT_CONTEXT *)&old);
        if (status == STATUS_FLT_CONTEXT_ALREADY_DEFINED) {
            FltReleaseContext(context);
            context = old;
        }
    }
    InterlockedIncrement(&context->Writes);
    FltReleaseContext(context);
    return FLT_PREOP_SUCCESS_NO_CALLBACK;
}

/* The entry takes the name and the instance's context along. */
static BOOLEAN BackupQueue(_In_ PFLT_INSTANCE Instance, _In_ PFLT_FILE_NAME_INFORMATION Name)
{
    PBACKUP_INSTANCE_CONTEXT context;
    PBACKUP_ENTRY entry;

    if (!NT_SUCCESS(FltGetInstanceContext(Instance, (PFLT_CONTEXT *)&context))) {
        return FALSE;
    }
    entry = ExAllocatePoolWithTag(PagedPool, sizeof(BACKUP_ENTRY), BACKUP_TAG);
    if (entry == NULL || !ExAcquireRundownProtection(&context->Queued)) {
        if (entry != NULL) {
            ExFreePoolWithTag(entry, BACKUP_TAG);
        }
        FltReleaseContext(context);
        return FALSE;
    }
    entry->Instance = Instance;
    entry->Context = context;
    entry->Name = Name;
    ExAcquireFastMutex(&gLock);
    InsertTailList(&gQueue, &entry->Links);
    ExReleaseFastMutex(&gLock);
    KeReleaseSemaphore(&gWork, IO_NO_INCREMENT, 1, FALSE);
    return TRUE;
}

static FLT_POSTOP_CALLBACK_STATUS BackupPostCleanup(_Inout_ PFLT_CALLBACK_DATA Data, _In_ PCFLT_RELATED_OBJECTS FltObjects, _In_opt_ PVOID CompletionContext,
                                                    _In_ FLT_POST_OPERATION_FLAGS Flags)
{
    PFLT_FILE_NAME_INFORMATION name = CompletionContext;

    UNREFERENCED_PARAMETER(Data);
    if ((Flags & FLTFL_POST_OPERATION_DRAINING) || !BackupQueue(FltObjects->Instance, name)) {
        FltReleaseFileNameInformation(name);
    }
    return FLT_POSTOP_FINISHED_PROCESSING;
}

/* A copy isn't copied: names below the folder are left out. */
static FLT_PREOP_CALLBACK_STATUS BackupPreCleanup(_Inout_ PFLT_CALLBACK_DATA Data, _In_ PCFLT_RELATED_OBJECTS FltObjects, _Flt_CompletionContext_Outptr_ PVOID *CompletionContext)
{
    PBACKUP_HANDLE_CONTEXT context;
    PFLT_FILE_NAME_INFORMATION name;

    if (!NT_SUCCESS(FltGetStreamHandleContext(FltObjects->Instance, FltObjects->FileObject, (PFLT_CONTEXT *)&context))) {
        return FLT_PREOP_SUCCESS_NO_CALLBACK;
    }
    FltReleaseContext(context);
    if (FltObjects->FileObject->DeletePending || RtlPrefixUnicodeString(&gFolder, &FltObjects->FileObject->FileName, TRUE) ||
        !NT_SUCCESS(FltGetFileNameInformation(Data, FLT_FILE_NAME_NORMALIZED | FLT_FILE_NAME_QUERY_DEFAULT, &name))) {
        return FLT_PREOP_SUCCESS_NO_CALLBACK;
    }
    *CompletionContext = name;
    return FLT_PREOP_SUCCESS_WITH_CALLBACK;
}

static NTSTATUS BackupInstanceSetup(_In_ PCFLT_RELATED_OBJECTS FltObjects, _In_ FLT_INSTANCE_SETUP_FLAGS Flags, _In_ DEVICE_TYPE VolumeDeviceType,
                                    _In_ FLT_FILESYSTEM_TYPE VolumeFilesystemType)
{
    PBACKUP_INSTANCE_CONTEXT context;
    NTSTATUS status = FltAllocateContext(gFilterHandle, FLT_INSTANCE_CONTEXT, sizeof(BACKUP_INSTANCE_CONTEXT), NonPagedPool, (PFLT_CONTEXT *)&context);

    UNREFERENCED_PARAMETER(Flags);
    UNREFERENCED_PARAMETER(VolumeDeviceType);
    UNREFERENCED_PARAMETER(VolumeFilesystemType);
    if (!NT_SUCCESS(status)) {
        return status;
    }
    ExInitializeRundownProtection(&context->Queued);
    status = FltSetInstanceContext(FltObjects->Instance, FLT_SET_CONTEXT_KEEP_IF_EXISTS, context, NULL);
    FltReleaseContext(context);
    return status;
}

static NTSTATUS BackupQueryTeardown(_In_ PCFLT_RELATED_OBJECTS FltObjects, _In_ FLT_INSTANCE_QUERY_TEARDOWN_FLAGS Flags)
{
    UNREFERENCED_PARAMETER(FltObjects);
    UNREFERENCED_PARAMETER(Flags);
    return STATUS_SUCCESS;
}

/* What is queued is copied first, and nothing is queued any more. */
static VOID BackupTeardownStart(_In_ PCFLT_RELATED_OBJECTS FltObjects, _In_ FLT_INSTANCE_TEARDOWN_FLAGS Reason)
{
    PBACKUP_INSTANCE_CONTEXT context;

    UNREFERENCED_PARAMETER(Reason);
    if (NT_SUCCESS(FltGetInstanceContext(FltObjects->Instance, (PFLT_CONTEXT *)&context))) {
        ExWaitForRundownProtectionRelease(&context->Queued);
        FltReleaseContext(context);
    }
}

static NTSTATUS BackupUnload(_In_ FLT_FILTER_UNLOAD_FLAGS Flags)
{
    UNREFERENCED_PARAMETER(Flags);
    FltUnregisterFilter(gFilterHandle);
    BackupStop();
    return STATUS_SUCCESS;
}

static CONST FLT_OPERATION_REGISTRATION Operations[] = {
    {IRP_MJ_WRITE, FLTFL_OPERATION_REGISTRATION_SKIP_PAGING_IO, BackupPreWrite, NULL},
    {IRP_MJ_CLEANUP, 0, BackupPreCleanup, BackupPostCleanup},
    {IRP_MJ_OPERATION_END},
};

static CONST FLT_CONTEXT_REGISTRATION Contexts[] = {
    {FLT_INSTANCE_CONTEXT, 0, NULL, sizeof(BACKUP_INSTANCE_CONTEXT), BACKUP_TAG},
    {FLT_STREAMHANDLE_CONTEXT, 0, NULL, sizeof(BACKUP_HANDLE_CONTEXT), BACKUP_TAG},
    {FLT_CONTEXT_END},
};

static CONST FLT_REGISTRATION Registration = {
    .Size = sizeof(FLT_REGISTRATION),
    .Version = FLT_REGISTRATION_VERSION,
    .ContextRegistration = Contexts,
    .OperationRegistration = Operations,
    .FilterUnloadCallback = BackupUnload,
    .InstanceSetupCallback = BackupInstanceSetup,
    .InstanceQueryTeardownCallback = BackupQueryTeardown,
    .InstanceTeardownStartCallback = BackupTeardownStart,
};

NTSTATUS DriverEntry(_In_ PDRIVER_OBJECT DriverObject, _In_ PUNICODE_STRING RegistryPath)
{
    NTSTATUS status;

    UNREFERENCED_PARAMETER(RegistryPath);
    ExInitializeFastMutex(&gLock);
    InitializeListHead(&gQueue);
    KeInitializeSemaphore(&gWork, 0, MAXLONG);
    status = FltRegisterFilter(DriverObject, &Registration, &gFilterHandle);
    if (!NT_SUCCESS(status)) {
        return status;
    }
    status = BackupStart();
    if (!NT_SUCCESS(status)) {
        FltUnregisterFilter(gFilterHandle);
        return status;
    }
    status = FltStartFiltering(gFilterHandle);
    if (!NT_SUCCESS(status)) {
        FltUnregisterFilter(gFilterHandle);
        BackupStop();
    }
    return status;
}
