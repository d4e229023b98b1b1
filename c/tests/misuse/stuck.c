/* What waits for ever, for an event that nobody can know of; a create that comes to itself; and one that is denied while its file is open. */
#include <fltKernel.h>

#define STUCK_TAG 'cutS'

static PFLT_FILTER gFilter;

static FLT_PREOP_CALLBACK_STATUS PreCreate(PFLT_CALLBACK_DATA Data, PCFLT_RELATED_OBJECTS FltObjects, PVOID *CompletionContext)
{
    UNICODE_STRING again = RTL_CONSTANT_STRING(L"\\Device\\v0\\again"), name = RTL_CONSTANT_STRING(L"\\again");
    OBJECT_ATTRIBUTES attributes;
    IO_STATUS_BLOCK status;
    HANDLE file;

    UNREFERENCED_PARAMETER(Data);
    UNREFERENCED_PARAMETER(CompletionContext);
    if (!RtlEqualUnicodeString(&FltObjects->FileObject->FileName, &name, TRUE)) {
        return FLT_PREOP_SUCCESS_WITH_CALLBACK;
    }
    InitializeObjectAttributes(&attributes, &again, OBJ_KERNEL_HANDLE | OBJ_CASE_INSENSITIVE, NULL, NULL);
    if (NT_SUCCESS(ZwCreateFile(&file, GENERIC_READ, &attributes, &status, NULL, FILE_ATTRIBUTE_NORMAL, FILE_SHARE_READ, FILE_OPEN_IF, FILE_SYNCHRONOUS_IO_NONALERT, NULL, 0))) {
        ZwClose(file);
    }
    return FLT_PREOP_SUCCESS_NO_CALLBACK;
}

static FLT_POSTOP_CALLBACK_STATUS PostCreate(PFLT_CALLBACK_DATA Data, PCFLT_RELATED_OBJECTS FltObjects, PVOID CompletionContext, FLT_POST_OPERATION_FLAGS Flags)
{
    UNICODE_STRING name = RTL_CONSTANT_STRING(L"\\denied");

    UNREFERENCED_PARAMETER(CompletionContext);
    UNREFERENCED_PARAMETER(Flags);
    if (RtlEqualUnicodeString(&FltObjects->FileObject->FileName, &name, TRUE)) {
        Data->IoStatus.Status = STATUS_ACCESS_DENIED;
        Data->IoStatus.Information = 0;
    }
    return FLT_POSTOP_FINISHED_PROCESSING;
}

/* Its event is on the stack. */
static FLT_PREOP_CALLBACK_STATUS PreRead(PFLT_CALLBACK_DATA Data, PCFLT_RELATED_OBJECTS FltObjects, PVOID *CompletionContext)
{
    KEVENT done;

    UNREFERENCED_PARAMETER(Data);
    UNREFERENCED_PARAMETER(FltObjects);
    UNREFERENCED_PARAMETER(CompletionContext);
    KeInitializeEvent(&done, NotificationEvent, FALSE);
    KeWaitForSingleObject(&done, Executive, KernelMode, FALSE, NULL);
    return FLT_PREOP_SUCCESS_NO_CALLBACK;
}

/* And in memory that nobody else knows of. */
static FLT_PREOP_CALLBACK_STATUS PreWrite(PFLT_CALLBACK_DATA Data, PCFLT_RELATED_OBJECTS FltObjects, PVOID *CompletionContext)
{
    PKEVENT done = ExAllocatePoolWithTag(NonPagedPoolNx, sizeof(KEVENT), STUCK_TAG);

    UNREFERENCED_PARAMETER(Data);
    UNREFERENCED_PARAMETER(FltObjects);
    UNREFERENCED_PARAMETER(CompletionContext);
    if (done == NULL) {
        return FLT_PREOP_SUCCESS_NO_CALLBACK;
    }
    KeInitializeEvent(done, NotificationEvent, FALSE);
    KeWaitForSingleObject(done, Executive, KernelMode, FALSE, NULL);
    ExFreePoolWithTag(done, STUCK_TAG);
    return FLT_PREOP_SUCCESS_NO_CALLBACK;
}

static NTSTATUS Unload(FLT_FILTER_UNLOAD_FLAGS Flags)
{
    UNREFERENCED_PARAMETER(Flags);
    FltUnregisterFilter(gFilter);
    return STATUS_SUCCESS;
}

static CONST FLT_OPERATION_REGISTRATION Callbacks[] = {{IRP_MJ_CREATE, 0, PreCreate, PostCreate}, {IRP_MJ_READ, 0, PreRead}, {IRP_MJ_WRITE, 0, PreWrite}, {IRP_MJ_OPERATION_END}};
static CONST FLT_REGISTRATION Registration = {sizeof(FLT_REGISTRATION), FLT_REGISTRATION_VERSION, 0, NULL, Callbacks, Unload};

NTSTATUS DriverEntry(PDRIVER_OBJECT DriverObject, PUNICODE_STRING RegistryPath)
{
    NTSTATUS status = FltRegisterFilter(DriverObject, &Registration, &gFilter);

    UNREFERENCED_PARAMETER(RegistryPath);
    return NT_SUCCESS(status) ? FltStartFiltering(gFilter) : status;
}
