/* Mistakes in operations that the manager doesn't look into; each by the name of a file. */
#include <fltKernel.h>

#define TAG 'drrC'

PFLT_FILTER gFilter;
PVOID gLost;

static BOOLEAN IsNamed(PFILE_OBJECT File, PCWSTR Name)
{
    UNICODE_STRING name;

    RtlInitUnicodeString(&name, Name);
    return File != NULL && RtlEqualUnicodeString(&File->FileName, &name, TRUE);
}

static FLT_PREOP_CALLBACK_STATUS PreQuery(PFLT_CALLBACK_DATA Data, PCFLT_RELATED_OBJECTS FltObjects, PVOID *CompletionContext)
{
    PFILE_OBJECT file = FltObjects->FileObject;

    UNREFERENCED_PARAMETER(CompletionContext);
    if (IsNamed(file, L"\\clean")) {
        Data->Iopb->Parameters.QueryFileInformation.Length = 8; /* and never marked dirty */
    } else if (IsNamed(file, L"\\lost")) {
        Data->Iopb->Parameters.QueryFileInformation.InfoBuffer = gLost = ExAllocatePoolWithTag(NonPagedPool, 64, TAG);
        FltSetCallbackDataDirty(Data); /* and no postoperation is asked for */
        return FLT_PREOP_SUCCESS_NO_CALLBACK;
    } else if (IsNamed(file, L"\\status")) {
        Data->IoStatus.Status = STATUS_ACCESS_DENIED; /* and it isn't completed */
    } else if (IsNamed(file, L"\\other")) {
        Data->Iopb->MajorFunction = IRP_MJ_SET_INFORMATION;
        FltSetCallbackDataDirty(Data);
    } else if (IsNamed(file, L"\\far")) {
        Data->IoStatus.Status = STATUS_SUCCESS;
        Data->IoStatus.Information = 4096;
        return FLT_PREOP_COMPLETE;
    } else if (IsNamed(file, L"\\mine")) {
        RtlFillMemory(Data->Iopb->Parameters.QueryFileInformation.InfoBuffer, sizeof(FILE_EA_INFORMATION), 7);
        Data->IoStatus.Status = STATUS_SUCCESS;
        Data->IoStatus.Information = sizeof(FILE_EA_INFORMATION);
        return FLT_PREOP_COMPLETE;
    }
    return FLT_PREOP_SUCCESS_WITH_CALLBACK;
}

static FLT_POSTOP_CALLBACK_STATUS PostQuery(PFLT_CALLBACK_DATA Data, PCFLT_RELATED_OBJECTS FltObjects, PVOID CompletionContext, FLT_POST_OPERATION_FLAGS Flags)
{
    UNREFERENCED_PARAMETER(CompletionContext);
    UNREFERENCED_PARAMETER(Flags);
    if (IsNamed(FltObjects->FileObject, L"\\past")) {
        ((PUCHAR)Data->Iopb->Parameters.QueryFileInformation.InfoBuffer)[Data->Iopb->Parameters.QueryFileInformation.Length] = 1;
    } else if (IsNamed(FltObjects->FileObject, L"\\denied")) {
        Data->IoStatus.Status = STATUS_VIRUS_INFECTED;
        Data->IoStatus.Information = 0;
    }
    return FLT_POSTOP_FINISHED_PROCESSING;
}

/* The name in the buffer of a rename whose folder is opened isn't the one that counts. */
static FLT_PREOP_CALLBACK_STATUS PreSet(PFLT_CALLBACK_DATA Data, PCFLT_RELATED_OBJECTS FltObjects, PVOID *CompletionContext)
{
    PFILE_RENAME_INFORMATION rename = Data->Iopb->Parameters.SetFileInformation.InfoBuffer;

    UNREFERENCED_PARAMETER(CompletionContext);
    if (Data->Iopb->Parameters.SetFileInformation.FileInformationClass == FileRenameInformation && IsNamed(FltObjects->FileObject, L"\\led")) {
        rename->FileName[rename->FileNameLength / sizeof(WCHAR) - 1] = L'x';
        FltSetCallbackDataDirty(Data);
    }
    return FLT_PREOP_SUCCESS_NO_CALLBACK;
}

/* Names are asked for where the file system may wait for the caller. */
static FLT_PREOP_CALLBACK_STATUS PreName(PFLT_CALLBACK_DATA Data, PCFLT_RELATED_OBJECTS FltObjects, PVOID *CompletionContext)
{
    PFLT_FILE_NAME_INFORMATION name;
    NTSTATUS status = STATUS_SUCCESS;

    UNREFERENCED_PARAMETER(CompletionContext);
    if (Data->Iopb->MajorFunction == IRP_MJ_CLOSE) {
        status = FltGetFileNameInformationUnsafe(FltObjects->FileObject, FltObjects->Instance, FLT_FILE_NAME_NORMALIZED | FLT_FILE_NAME_QUERY_DEFAULT, &name);
    } else {
        status = FltGetFileNameInformation(Data, FLT_FILE_NAME_NORMALIZED | FLT_FILE_NAME_QUERY_DEFAULT, &name);
    }
    if (NT_SUCCESS(status)) {
        FltReleaseFileNameInformation(name);
    } else {
        DbgPrint("Carried: no name, 0x%08x\n", status);
    }
    return FLT_PREOP_SUCCESS_NO_CALLBACK;
}

static FLT_PREOP_CALLBACK_STATUS PreAcquire(PFLT_CALLBACK_DATA Data, PCFLT_RELATED_OBJECTS FltObjects, PVOID *CompletionContext)
{
    UNREFERENCED_PARAMETER(Data);
    UNREFERENCED_PARAMETER(FltObjects);
    UNREFERENCED_PARAMETER(CompletionContext);
    return FLT_PREOP_PENDING;
}

static NTSTATUS QueryTeardown(PCFLT_RELATED_OBJECTS FltObjects, FLT_INSTANCE_QUERY_TEARDOWN_FLAGS Flags)
{
    UNREFERENCED_PARAMETER(FltObjects);
    UNREFERENCED_PARAMETER(Flags);
    return STATUS_SUCCESS;
}

static NTSTATUS Unload(FLT_FILTER_UNLOAD_FLAGS Flags)
{
    UNREFERENCED_PARAMETER(Flags);
    FltUnregisterFilter(gFilter);
    if (gLost != NULL) {
        ExFreePoolWithTag(gLost, TAG);
    }
    return STATUS_SUCCESS;
}

CONST FLT_OPERATION_REGISTRATION Callbacks[] = {{IRP_MJ_QUERY_INFORMATION, 0, PreQuery, PostQuery},
                                                {IRP_MJ_SET_INFORMATION, 0, PreSet, NULL},
                                                {IRP_MJ_READ, 0, PreName, NULL},
                                                {IRP_MJ_CLOSE, 0, PreName, NULL},
                                                {IRP_MJ_ACQUIRE_FOR_SECTION_SYNCHRONIZATION, 0, PreAcquire, NULL},
                                                {IRP_MJ_OPERATION_END}};
CONST FLT_REGISTRATION Registration = {sizeof(FLT_REGISTRATION), FLT_REGISTRATION_VERSION, 0, NULL, Callbacks, Unload, NULL, QueryTeardown};

NTSTATUS DriverEntry(PDRIVER_OBJECT DriverObject, PUNICODE_STRING RegistryPath)
{
    NTSTATUS status = FltRegisterFilter(DriverObject, &Registration, &gFilter);

    UNREFERENCED_PARAMETER(RegistryPath);
    return NT_SUCCESS(status) ? FltStartFiltering(gFilter) : status;
}
