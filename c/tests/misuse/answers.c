/* Answers that count as others, each brought about by a file's name. What the host has to tell of each stands in c/expected/answers.out. */
#include <fltKernel.h>

PFLT_FILTER gFilterHandle;
static UCHAR gOther[4];

static BOOLEAN IsNamed(PCFLT_RELATED_OBJECTS FltObjects, PCWSTR Name)
{
    UNICODE_STRING name;
    RtlInitUnicodeString(&name, Name);
    return FltObjects->FileObject != NULL && RtlEqualUnicodeString(&FltObjects->FileObject->FileName, &name, FALSE);
}

static FLT_PREOP_CALLBACK_STATUS Complete(PFLT_CALLBACK_DATA Data, NTSTATUS Status, ULONG_PTR Information)
{
    Data->IoStatus.Status = Status;
    Data->IoStatus.Information = Information;
    return FLT_PREOP_COMPLETE;
}

static FLT_PREOP_CALLBACK_STATUS PreCreate(PFLT_CALLBACK_DATA Data, PCFLT_RELATED_OBJECTS FltObjects, PVOID *CompletionContext)
{
    PFLT_FILE_NAME_INFORMATION nameInfo;

    UNREFERENCED_PARAMETER(CompletionContext);
    if (IsNamed(FltObjects, L"\\made")) {
        return Complete(Data, STATUS_SUCCESS, FILE_OPENED);
    }
    if (IsNamed(FltObjects, L"\\named")) {
        FltGetFileNameInformation(Data, FLT_FILE_NAME_OPENED, &nameInfo);
    }
    return FLT_PREOP_SUCCESS_WITH_CALLBACK;
}

static FLT_POSTOP_CALLBACK_STATUS PostCreate(PFLT_CALLBACK_DATA Data, PCFLT_RELATED_OBJECTS FltObjects, PVOID CompletionContext,
                                             FLT_POST_OPERATION_FLAGS Flags)
{
    UNREFERENCED_PARAMETER(CompletionContext);
    UNREFERENCED_PARAMETER(Flags);
    if (IsNamed(FltObjects, L"\\denied")) {
        Data->IoStatus.Status = STATUS_ACCESS_DENIED;
        Data->IoStatus.Information = 0;
    }
    return FLT_POSTOP_FINISHED_PROCESSING;
}

static FLT_PREOP_CALLBACK_STATUS PreRead(PFLT_CALLBACK_DATA Data, PCFLT_RELATED_OBJECTS FltObjects, PVOID *CompletionContext)
{
    UNREFERENCED_PARAMETER(FltObjects);
    UNREFERENCED_PARAMETER(CompletionContext);
    switch (Data->Iopb->Parameters.Read.ByteOffset.QuadPart) {
    case 0: /* A status that the manager lacks: STATUS_VIRUS_INFECTED. */
        return Complete(Data, (NTSTATUS)0xC0000906, 0);
    case 1: /* A length that comes with no bytes. */
        return Complete(Data, STATUS_SUCCESS, 4);
    case 2: /* Changed, and not marked. */
        Data->Iopb->Parameters.Read.Length = 1;
        return FLT_PREOP_SUCCESS_NO_CALLBACK;
    case 3: /* A buffer that nobody copies from. */
        Data->Iopb->Parameters.Read.ReadBuffer = gOther;
        FltSetCallbackDataDirty(Data);
        return FLT_PREOP_SUCCESS_NO_CALLBACK;
    case 4: /* No postoperation is registered. */
        return FLT_PREOP_SUCCESS_WITH_CALLBACK;
    case 5: /* Past the limit of a read. */
        Data->Iopb->Parameters.Read.Length = 40000;
        FltSetCallbackDataDirty(Data);
        return FLT_PREOP_SUCCESS_NO_CALLBACK;
    default:
        return (FLT_PREOP_CALLBACK_STATUS)77;
    }
}

static FLT_PREOP_CALLBACK_STATUS PreWrite(PFLT_CALLBACK_DATA Data, PCFLT_RELATED_OBJECTS FltObjects, PVOID *CompletionContext)
{
    UNREFERENCED_PARAMETER(FltObjects);
    UNREFERENCED_PARAMETER(CompletionContext);
    /* In place, in the caller's buffer. */
    __try { RtlFillMemory(Data->Iopb->Parameters.Write.WriteBuffer, Data->Iopb->Parameters.Write.Length, '*'); } __except (EXCEPTION_EXECUTE_HANDLER) { }
    return FLT_PREOP_SUCCESS_NO_CALLBACK;
}

static FLT_PREOP_CALLBACK_STATUS PreCleanup(PFLT_CALLBACK_DATA Data, PCFLT_RELATED_OBJECTS FltObjects, PVOID *CompletionContext)
{
    UNREFERENCED_PARAMETER(FltObjects);
    UNREFERENCED_PARAMETER(CompletionContext);
    return Complete(Data, STATUS_ACCESS_DENIED, 0);
}

static NTSTATUS Unload(FLT_FILTER_UNLOAD_FLAGS Flags)
{
    /* It forgets FltUnregisterFilter. */
    UNREFERENCED_PARAMETER(Flags);
    return STATUS_SUCCESS;
}

CONST FLT_OPERATION_REGISTRATION Callbacks[] = {{IRP_MJ_CREATE, 0, PreCreate, PostCreate},
                                                {IRP_MJ_READ, 0, PreRead, NULL},
                                                {IRP_MJ_WRITE, 0, PreWrite, NULL},
                                                {IRP_MJ_CLEANUP, 0, PreCleanup, NULL},
                                                {IRP_MJ_OPERATION_END}};
CONST FLT_REGISTRATION Registration = {sizeof(FLT_REGISTRATION), FLT_REGISTRATION_VERSION, 0, NULL, Callbacks, Unload, NULL, NULL, NULL, NULL};

NTSTATUS DriverEntry(PDRIVER_OBJECT DriverObject, PUNICODE_STRING RegistryPath)
{
    NTSTATUS status = FltRegisterFilter(DriverObject, &Registration, &gFilterHandle);

    UNREFERENCED_PARAMETER(RegistryPath);
    return NT_SUCCESS(status) ? FltStartFiltering(gFilterHandle) : status;
}
