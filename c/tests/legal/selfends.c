/* Waits that come to their end: rundown protection by who has left, or that a work item lets go; a thread that is told to end; a log that is written below; parents that are opened one in another. */
#include <fltKernel.h>

static PFLT_FILTER gFilter;
static EX_RUNDOWN_REF gRundown;
static KEVENT gStop;
static PETHREAD gThread;

static VOID Live(PVOID Context)
{
    UNREFERENCED_PARAMETER(Context);
    KeWaitForSingleObject(&gStop, Executive, KernelMode, FALSE, NULL);
    PsTerminateSystemThread(STATUS_SUCCESS);
}

static NTSTATUS StartThread(VOID)
{
    HANDLE handle;
    NTSTATUS status = PsCreateSystemThread(&handle, THREAD_ALL_ACCESS, NULL, NULL, NULL, Live, NULL);

    if (!NT_SUCCESS(status)) {
        return status;
    }
    status = ObReferenceObjectByHandle(handle, THREAD_ALL_ACCESS, *PsThreadType, KernelMode, (PVOID *)&gThread, NULL);
    ZwClose(handle);
    return status;
}

/* The folder of a folder, and so on up to the root: three deep. */
static FLT_PREOP_CALLBACK_STATUS PreCreate(PFLT_CALLBACK_DATA Data, PCFLT_RELATED_OBJECTS FltObjects, PVOID *CompletionContext)
{
    UNICODE_STRING path = RTL_CONSTANT_STRING(L"\\Device\\v0\\x\\y\\z");
    OBJECT_ATTRIBUTES attributes;
    IO_STATUS_BLOCK done;
    HANDLE folder;
    USHORT length = FltObjects->FileObject->FileName.Length;

    UNREFERENCED_PARAMETER(Data);
    UNREFERENCED_PARAMETER(CompletionContext);
    if (length < 3 * sizeof(WCHAR) || length > 5 * sizeof(WCHAR) || FltObjects->FileObject->FileName.Buffer[1] != L'x') {
        return FLT_PREOP_SUCCESS_NO_CALLBACK;
    }
    path.Length = 10 * sizeof(WCHAR) + length - 2 * sizeof(WCHAR);
    InitializeObjectAttributes(&attributes, &path, OBJ_KERNEL_HANDLE | OBJ_CASE_INSENSITIVE, NULL, NULL);
    if (NT_SUCCESS(ZwCreateFile(&folder, FILE_LIST_DIRECTORY | SYNCHRONIZE, &attributes, &done, NULL, FILE_ATTRIBUTE_NORMAL, FILE_SHARE_VALID_FLAGS, FILE_OPEN, FILE_DIRECTORY_FILE | FILE_SYNCHRONOUS_IO_NONALERT,
                                NULL, 0))) {
        ZwClose(folder);
    }
    return FLT_PREOP_SUCCESS_NO_CALLBACK;
}

static VOID LetGo(PFLT_GENERIC_WORKITEM Item, PVOID Object, PVOID Context)
{
    UNREFERENCED_PARAMETER(Object);
    UNREFERENCED_PARAMETER(Context);
    FltFreeGenericWorkItem(Item);
    ExReleaseRundownProtection(&gRundown);
}

/* Who has left waits for those who are inside; and once more. */
static FLT_PREOP_CALLBACK_STATUS PreFlush(PFLT_CALLBACK_DATA Data, PCFLT_RELATED_OBJECTS FltObjects, PVOID *CompletionContext)
{
    PFLT_GENERIC_WORKITEM item;

    UNREFERENCED_PARAMETER(Data);
    UNREFERENCED_PARAMETER(CompletionContext);
    if (!ExAcquireRundownProtection(&gRundown)) {
        return FLT_PREOP_SUCCESS_NO_CALLBACK;
    }
    item = FltAllocateGenericWorkItem();
    if (item == NULL || !NT_SUCCESS(FltQueueGenericWorkItem(item, FltObjects->Instance, LetGo, DelayedWorkQueue, NULL))) {
        if (item != NULL) {
            FltFreeGenericWorkItem(item);
        }
        ExReleaseRundownProtection(&gRundown);
    }
    return FLT_PREOP_SUCCESS_NO_CALLBACK;
}

/* The log is the file itself, below this instance. */
static FLT_PREOP_CALLBACK_STATUS PreWrite(PFLT_CALLBACK_DATA Data, PCFLT_RELATED_OBJECTS FltObjects, PVOID *CompletionContext)
{
    LARGE_INTEGER place;

    UNREFERENCED_PARAMETER(CompletionContext);
    place.QuadPart = 512;
    if (!FlagOn(Data->Iopb->IrpFlags, IRP_PAGING_IO) && Data->RequestorMode == UserMode && FLT_IS_IRP_OPERATION(Data)) {
        FltWriteFile(FltObjects->Instance, FltObjects->FileObject, &place, 1, "w", FLTFL_IO_OPERATION_DO_NOT_UPDATE_BYTE_OFFSET, NULL, NULL, NULL);
    }
    return FLT_PREOP_SUCCESS_NO_CALLBACK;
}

static VOID EndThread(VOID)
{
    KeSetEvent(&gStop, IO_NO_INCREMENT, FALSE);
    KeWaitForSingleObject(gThread, Executive, KernelMode, FALSE, NULL);
    ObDereferenceObject(gThread);
}

static NTSTATUS Unload(FLT_FILTER_UNLOAD_FLAGS Flags)
{
    UNREFERENCED_PARAMETER(Flags);
    ExWaitForRundownProtectionRelease(&gRundown);
    FltUnregisterFilter(gFilter);
    EndThread();
    return STATUS_SUCCESS;
}

static const FLT_OPERATION_REGISTRATION gOperations[] = {{IRP_MJ_CREATE, 0, PreCreate, NULL}, {IRP_MJ_FLUSH_BUFFERS, 0, PreFlush, NULL}, {IRP_MJ_WRITE, 0, PreWrite, NULL}, {IRP_MJ_OPERATION_END}};
static const FLT_REGISTRATION gRegistration = {sizeof(FLT_REGISTRATION), FLT_REGISTRATION_VERSION, 0, NULL, gOperations, Unload};

NTSTATUS DriverEntry(PDRIVER_OBJECT DriverObject, PUNICODE_STRING RegistryPath)
{
    NTSTATUS status = FltRegisterFilter(DriverObject, &gRegistration, &gFilter);

    UNREFERENCED_PARAMETER(RegistryPath);
    if (!NT_SUCCESS(status)) {
        return status;
    }
    ExInitializeRundownProtection(&gRundown);
    KeInitializeEvent(&gStop, NotificationEvent, FALSE);
    status = StartThread();
    if (NT_SUCCESS(status)) {
        status = FltStartFiltering(gFilter);
        if (!NT_SUCCESS(status)) {
            EndThread();
        }
    }
    if (!NT_SUCCESS(status)) {
        FltUnregisterFilter(gFilter);
    }
    return status;
}
