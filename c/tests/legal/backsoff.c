/* A filter that keeps a file open after it was closed, by a thread of its own, and is in nobody's way: it has an oplock by its handle, and closes that as soon as the oplock breaks. */
#include <fltKernel.h>

DRIVER_INITIALIZE DriverEntry;
static PFLT_FILTER Filter;
static KEVENT Stop;       /* the instance goes */
static PKTHREAD Thread;   /* that keeps a file; there is one at most */
static LONG IsKept;

typedef struct _KEPT {
    PFLT_INSTANCE Instance;
    PFLT_FILE_NAME_INFORMATION Name;
    KEVENT Broken;
    REQUEST_OPLOCK_INPUT_BUFFER Input[2]; /* the answer comes into the same memory, and is larger */
} KEPT, *PKEPT;

static NTSTATUS Broken(PFLT_CALLBACK_DATA Data, PFLT_CONTEXT Context)
{
    UNREFERENCED_PARAMETER(Data);
    KeSetEvent(&((PKEPT)Context)->Broken, IO_NO_INCREMENT, FALSE);
    return STATUS_SUCCESS;
}

/* A request by which a handle that is cached is told that somebody else wants the file. */
static NTSTATUS Ask(PKEPT Kept, PFILE_OBJECT FileObject, PFLT_CALLBACK_DATA *Data)
{
    REQUEST_OPLOCK_INPUT_BUFFER input = {REQUEST_OPLOCK_CURRENT_VERSION, sizeof input, OPLOCK_LEVEL_CACHE_READ | OPLOCK_LEVEL_CACHE_HANDLE, REQUEST_OPLOCK_INPUT_FLAG_REQUEST};
    PFLT_PARAMETERS parameters;
    NTSTATUS status = FltAllocateCallbackData(Kept->Instance, FileObject, Data);

    if (!NT_SUCCESS(status)) {
        return status;
    }
    Kept->Input[0] = input;
    parameters = &(*Data)->Iopb->Parameters;
    (*Data)->Iopb->MajorFunction = IRP_MJ_FILE_SYSTEM_CONTROL;
    (*Data)->Iopb->MinorFunction = IRP_MN_USER_FS_REQUEST;
    parameters->FileSystemControl.Buffered.FsControlCode = FSCTL_REQUEST_OPLOCK;
    parameters->FileSystemControl.Buffered.InputBufferLength = sizeof input;
    parameters->FileSystemControl.Buffered.OutputBufferLength = sizeof(REQUEST_OPLOCK_OUTPUT_BUFFER);
    parameters->FileSystemControl.Buffered.SystemBuffer = Kept->Input;
    return FltPerformAsynchronousIo(*Data, Broken, Kept);
}

static VOID Hold(PKEPT Kept, PFILE_OBJECT FileObject, HANDLE Handle)
{
    PVOID either[] = {&Kept->Broken, &Stop};
    PFLT_CALLBACK_DATA data = NULL;

    if (NT_SUCCESS(Ask(Kept, FileObject, &data))) {
        KeWaitForMultipleObjects(2, either, WaitAny, Executive, KernelMode, FALSE, NULL, NULL);
    }
    FltClose(Handle);
    ObDereferenceObject(FileObject);
    if (data) {
        KeWaitForSingleObject(&Kept->Broken, Executive, KernelMode, FALSE, NULL);
        FltFreeCallbackData(data);
    }
}

/* Nobody is kept waiting for a file that somebody else has an oplock of. */
static VOID Keep(PVOID Context)
{
    PKEPT kept = Context;
    OBJECT_ATTRIBUTES attributes;
    IO_STATUS_BLOCK block;
    PFILE_OBJECT file;
    HANDLE handle;
    NTSTATUS status;

    InitializeObjectAttributes(&attributes, &kept->Name->Name, OBJ_KERNEL_HANDLE | OBJ_CASE_INSENSITIVE, NULL, NULL);
    status = FltCreateFileEx2(Filter, kept->Instance, &handle, &file, FILE_READ_DATA | SYNCHRONIZE, &attributes, &block, NULL, FILE_ATTRIBUTE_NORMAL, FILE_SHARE_READ, FILE_OPEN,
                              FILE_NON_DIRECTORY_FILE | FILE_COMPLETE_IF_OPLOCKED, NULL, 0, 0, NULL);
    if (NT_SUCCESS(status)) {
        if (status == STATUS_OPLOCK_BREAK_IN_PROGRESS) {
            FltClose(handle);
            ObDereferenceObject(file);
        } else {
            Hold(kept, file, handle);
        }
    }
    FltReleaseFileNameInformation(kept->Name);
    FltObjectDereference(kept->Instance);
    ExFreePoolWithTag(kept, 'sffo');
    PsTerminateSystemThread(STATUS_SUCCESS);
}

static NTSTATUS Begin(PFLT_CALLBACK_DATA Data, PCFLT_RELATED_OBJECTS FltObjects)
{
    HANDLE handle;
    PKEPT kept = ExAllocatePoolZero(NonPagedPoolNx, sizeof *kept, 'sffo');
    NTSTATUS status = kept ? FltGetFileNameInformation(Data, FLT_FILE_NAME_NORMALIZED | FLT_FILE_NAME_QUERY_DEFAULT, &kept->Name) : STATUS_INSUFFICIENT_RESOURCES;

    if (NT_SUCCESS(status)) {
        status = FltObjectReference(FltObjects->Instance);
        if (NT_SUCCESS(status)) {
            kept->Instance = FltObjects->Instance;
            KeInitializeEvent(&kept->Broken, NotificationEvent, FALSE);
            status = PsCreateSystemThread(&handle, THREAD_ALL_ACCESS, NULL, NULL, NULL, Keep, kept);
            if (NT_SUCCESS(status)) {
                ObReferenceObjectByHandle(handle, THREAD_ALL_ACCESS, NULL, KernelMode, (PVOID *)&Thread, NULL);
                ZwClose(handle);
                return status;
            }
            FltObjectDereference(FltObjects->Instance);
        }
        FltReleaseFileNameInformation(kept->Name);
    }
    if (kept) {
        ExFreePoolWithTag(kept, 'sffo');
    }
    return status;
}

/* The first file that is closed is kept. */
static FLT_PREOP_CALLBACK_STATUS PreCleanup(PFLT_CALLBACK_DATA Data, PCFLT_RELATED_OBJECTS FltObjects, PVOID *CompletionContext)
{
    BOOLEAN isDirectory = TRUE;

    UNREFERENCED_PARAMETER(CompletionContext);
    if (NT_SUCCESS(FltIsDirectory(FltObjects->FileObject, FltObjects->Instance, &isDirectory)) && !isDirectory && InterlockedExchange(&IsKept, 1) == 0) {
        Begin(Data, FltObjects);
    }
    return FLT_PREOP_SUCCESS_NO_CALLBACK;
}

static VOID TeardownStart(PCFLT_RELATED_OBJECTS FltObjects, FLT_INSTANCE_TEARDOWN_FLAGS Reason)
{
    UNREFERENCED_PARAMETER(FltObjects);
    UNREFERENCED_PARAMETER(Reason);
    InterlockedExchange(&IsKept, 1);
    KeSetEvent(&Stop, IO_NO_INCREMENT, FALSE);
    if (Thread) {
        KeWaitForSingleObject(Thread, Executive, KernelMode, FALSE, NULL);
        ObDereferenceObject(Thread);
        Thread = NULL;
    }
}

static NTSTATUS Unload(FLT_FILTER_UNLOAD_FLAGS Flags)
{
    UNREFERENCED_PARAMETER(Flags);
    FltUnregisterFilter(Filter);
    return STATUS_SUCCESS;
}

static CONST FLT_OPERATION_REGISTRATION Callbacks[] = {{IRP_MJ_CLEANUP, 0, PreCleanup, NULL, NULL}, {IRP_MJ_OPERATION_END, 0, NULL, NULL, NULL}};

static CONST FLT_REGISTRATION Registration = {sizeof(FLT_REGISTRATION), FLT_REGISTRATION_VERSION, 0, NULL, Callbacks, Unload, NULL, NULL, TeardownStart, NULL, NULL, NULL, NULL, NULL};

NTSTATUS DriverEntry(PDRIVER_OBJECT DriverObject, PUNICODE_STRING RegistryPath)
{
    NTSTATUS status;

    UNREFERENCED_PARAMETER(RegistryPath);
    KeInitializeEvent(&Stop, NotificationEvent, FALSE);
    status = FltRegisterFilter(DriverObject, &Registration, &Filter);
    if (NT_SUCCESS(status)) {
        status = FltStartFiltering(Filter);
        if (!NT_SUCCESS(status)) {
            FltUnregisterFilter(Filter);
        }
    }
    return status;
}
