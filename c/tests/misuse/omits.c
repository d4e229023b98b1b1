/* Single omissions, a step for each flush: what a call of the kit wants, and isn't given. */
#include <fltKernel.h>

#define OMITS_TAG 'timO'

typedef struct _LOCKS {
    KSPIN_LOCK Spin;
    FAST_MUTEX Fast;
} LOCKS, *PLOCKS;

static PFLT_FILTER gFilter;
static KSPIN_LOCK gLock;
static ERESOURCE gNever;
static ULONG gStep;
static UNICODE_STRING gText = RTL_CONSTANT_STRING(L"wide");

static FLT_PREOP_CALLBACK_STATUS PreCreate(PFLT_CALLBACK_DATA Data, PCFLT_RELATED_OBJECTS FltObjects, PVOID *CompletionContext)
{
    PFLT_FILE_NAME_INFORMATION name;
    BOOLEAN is;

    UNREFERENCED_PARAMETER(Data);
    UNREFERENCED_PARAMETER(CompletionContext);
    FltIsDirectory(FltObjects->FileObject, FltObjects->Instance, &is);
    if (NT_SUCCESS(FltGetFileNameInformationUnsafe(FltObjects->FileObject, FltObjects->Instance, FLT_FILE_NAME_NORMALIZED | FLT_FILE_NAME_QUERY_DEFAULT, &name))) {
        FltReleaseFileNameInformation(name);
    }
    return FLT_PREOP_SUCCESS_NO_CALLBACK;
}

/* Locks in memory that is as it was allocated. */
static VOID TakeLocks(VOID)
{
    PLOCKS locks = ExAllocatePoolWithTag(NonPagedPool, sizeof(LOCKS), OMITS_TAG);
    KIRQL irql;

    if (locks == NULL) {
        return;
    }
    KeAcquireSpinLock(&locks->Spin, &irql);
    KeReleaseSpinLock(&locks->Spin, irql);
    ExAcquireFastMutex(&locks->Fast);
    ExReleaseFastMutex(&locks->Fast);
    ExFreePoolWithTag(locks, OMITS_TAG);
}

static VOID LockPages(VOID)
{
    PVOID memory = ExAllocatePoolWithTag(PagedPool, 16, OMITS_TAG);
    PMDL mdl = memory == NULL ? NULL : IoAllocateMdl(memory, 16, FALSE, FALSE, NULL);

    if (mdl != NULL) {
        MmProbeAndLockPages(mdl, KernelMode, IoReadAccess);
        IoFreeMdl(mdl);
    }
    if (memory != NULL) {
        ExFreePoolWithTag(memory, OMITS_TAG);
    }
}

static VOID OpenForProgram(PCFLT_RELATED_OBJECTS FltObjects)
{
    UNICODE_STRING name = RTL_CONSTANT_STRING(L"\\Device\\v0\\a");
    OBJECT_ATTRIBUTES attributes;
    IO_STATUS_BLOCK status;
    HANDLE file;

    InitializeObjectAttributes(&attributes, &name, OBJ_CASE_INSENSITIVE, NULL, NULL);
    if (NT_SUCCESS(FltCreateFile(FltObjects->Filter, FltObjects->Instance, &file, GENERIC_READ, &attributes, &status, NULL, FILE_ATTRIBUTE_NORMAL, FILE_SHARE_VALID_FLAGS, FILE_OPEN, 0, NULL, 0, 0))) {
        FltClose(file);
    }
}

static FLT_PREOP_CALLBACK_STATUS PreFlush(PFLT_CALLBACK_DATA Data, PCFLT_RELATED_OBJECTS FltObjects, PVOID *CompletionContext)
{
    PFLT_FILE_NAME_INFORMATION name;
    PSECURITY_DESCRIPTOR security;
    PVOID memory;
    KIRQL irql;

    UNREFERENCED_PARAMETER(CompletionContext);
    switch (gStep++) {
    case 0:
        if (NT_SUCCESS(FltGetFileNameInformation(Data, FLT_FILE_NAME_NORMALIZED | FLT_FILE_NAME_QUERY_DEFAULT, &name))) {
            DbgPrint("%ws\n", name->Name.Buffer);
            FltReleaseFileNameInformation(name);
        }
        break;
    case 1:
        KeAcquireSpinLock(&gLock, &irql);
        DbgPrint("%wZ\n", &gText);
        KeReleaseSpinLock(&gLock, irql);
        break;
    case 2:
        FltAcquireResourceExclusive(&gNever);
        FltReleaseResource(&gNever);
        break;
    case 3:
        TakeLocks();
        break;
    case 4:
        LockPages();
        break;
    case 5:
        memory = ExAllocatePoolWithTag(NonPagedPool, 0, OMITS_TAG);
        if (memory != NULL) {
            ExFreePoolWithTag(memory, OMITS_TAG);
        }
        break;
    case 6:
        OpenForProgram(FltObjects);
        break;
    case 7:
        FltBuildDefaultSecurityDescriptor(&security, FLT_PORT_ALL_ACCESS);
        break;
    case 8:
        Data->IoStatus.Status = STATUS_FLT_DISALLOW_FAST_IO;
        return FLT_PREOP_COMPLETE;
    }
    return FLT_PREOP_SUCCESS_NO_CALLBACK;
}

/* It frees the MDL that the manager made for it. */
static FLT_PREOP_CALLBACK_STATUS PreRead(PFLT_CALLBACK_DATA Data, PCFLT_RELATED_OBJECTS FltObjects, PVOID *CompletionContext)
{
    UNREFERENCED_PARAMETER(FltObjects);
    UNREFERENCED_PARAMETER(CompletionContext);
    if (NT_SUCCESS(FltLockUserBuffer(Data)) && Data->Iopb->Parameters.Read.MdlAddress != NULL) {
        IoFreeMdl(Data->Iopb->Parameters.Read.MdlAddress);
    }
    return FLT_PREOP_SUCCESS_NO_CALLBACK;
}

/* The buffer is another one, and the MDL still that of the caller's. */
static FLT_PREOP_CALLBACK_STATUS PreWrite(PFLT_CALLBACK_DATA Data, PCFLT_RELATED_OBJECTS FltObjects, PVOID *CompletionContext)
{
    PVOID buffer;

    UNREFERENCED_PARAMETER(FltObjects);
    if (!NT_SUCCESS(FltLockUserBuffer(Data))) {
        return FLT_PREOP_SUCCESS_NO_CALLBACK;
    }
    buffer = ExAllocatePoolWithTag(NonPagedPool, Data->Iopb->Parameters.Write.Length, OMITS_TAG);
    if (buffer == NULL) {
        return FLT_PREOP_SUCCESS_NO_CALLBACK;
    }
    RtlCopyMemory(buffer, Data->Iopb->Parameters.Write.WriteBuffer, Data->Iopb->Parameters.Write.Length);
    Data->Iopb->Parameters.Write.WriteBuffer = buffer;
    FltSetCallbackDataDirty(Data);
    *CompletionContext = buffer;
    return FLT_PREOP_SUCCESS_WITH_CALLBACK;
}

static FLT_POSTOP_CALLBACK_STATUS PostWrite(PFLT_CALLBACK_DATA Data, PCFLT_RELATED_OBJECTS FltObjects, PVOID CompletionContext, FLT_POST_OPERATION_FLAGS Flags)
{
    UNREFERENCED_PARAMETER(Data);
    UNREFERENCED_PARAMETER(FltObjects);
    UNREFERENCED_PARAMETER(Flags);
    ExFreePoolWithTag(CompletionContext, OMITS_TAG);
    return FLT_POSTOP_FINISHED_PROCESSING;
}

/* It refuses though the unload is mandatory. */
static NTSTATUS Unload(FLT_FILTER_UNLOAD_FLAGS Flags)
{
    UNREFERENCED_PARAMETER(Flags);
    return STATUS_FLT_DO_NOT_DETACH;
}

static CONST FLT_OPERATION_REGISTRATION Callbacks[] = {
    {IRP_MJ_CREATE, 0, PreCreate}, {IRP_MJ_FLUSH_BUFFERS, 0, PreFlush}, {IRP_MJ_READ, 0, PreRead}, {IRP_MJ_WRITE, 0, PreWrite, PostWrite}, {IRP_MJ_OPERATION_END}};
static CONST FLT_REGISTRATION Registration = {sizeof(FLT_REGISTRATION), FLT_REGISTRATION_VERSION, 0, NULL, Callbacks, Unload};

NTSTATUS DriverEntry(PDRIVER_OBJECT DriverObject, PUNICODE_STRING RegistryPath)
{
    NTSTATUS status = FltRegisterFilter(DriverObject, &Registration, &gFilter);

    UNREFERENCED_PARAMETER(RegistryPath);
    KeInitializeSpinLock(&gLock);
    return NT_SUCCESS(status) ? FltStartFiltering(gFilter) : status;
}
