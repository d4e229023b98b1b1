/* Denies by what was written: a write that has a foul word is completed with STATUS_ACCESS_DENIED, in files whose names end in .txt or .doc. A file that a foul
 * word was kept out of can't be marked for deletion, since its handle keeps the count. */
#include <fltKernel.h>

#define SCANNER_TAG 'nacS'

typedef struct _SCANNER_STREAM_HANDLE_CONTEXT {
    LONG Denied;
} SCANNER_STREAM_HANDLE_CONTEXT, *PSCANNER_STREAM_HANDLE_CONTEXT;

PFLT_FILTER gFilterHandle;

static const UNICODE_STRING ScannedExtensions[] = {RTL_CONSTANT_STRING(L".txt"), RTL_CONSTANT_STRING(L".doc")};
static const CHAR FoulString[] = "foul";

static BOOLEAN ScannerHasExtension(_In_ PCUNICODE_STRING Name)
{
    UNICODE_STRING end;
    ULONG i;

    for (i = 0; i < sizeof(ScannedExtensions) / sizeof(ScannedExtensions[0]); i++) {
        if (Name->Length < ScannedExtensions[i].Length) {
            continue;
        }
        end.Length = end.MaximumLength = ScannedExtensions[i].Length;
        end.Buffer = Name->Buffer + (Name->Length - end.Length) / sizeof(WCHAR);
        if (RtlEqualUnicodeString(&end, &ScannedExtensions[i], TRUE)) {
            return TRUE;
        }
    }
    return FALSE;
}

static BOOLEAN ScannerIsFoul(_In_reads_bytes_(Length) const UCHAR *Buffer, _In_ ULONG Length)
{
    ULONG size = sizeof(FoulString) - 1;
    ULONG i;

    for (i = 0; i + size <= Length; i++) {
        if (RtlEqualMemory(Buffer + i, FoulString, size)) {
            return TRUE;
        }
    }
    return FALSE;
}

/* The caller's own buffer may be freed by its program meanwhile. */
static NTSTATUS ScannerLook(_In_reads_bytes_(Length) const UCHAR *Buffer, _In_ ULONG Length, _Out_ PBOOLEAN IsFoul)
{
    NTSTATUS status = STATUS_SUCCESS;

    try {
        *IsFoul = ScannerIsFoul(Buffer, Length);
    } except (EXCEPTION_EXECUTE_HANDLER) {
        status = GetExceptionCode();
    }
    return status;
}

/* A handle on a file that is scanned has a context. */
static FLT_POSTOP_CALLBACK_STATUS ScannerPostCreate(_Inout_ PFLT_CALLBACK_DATA Data, _In_ PCFLT_RELATED_OBJECTS FltObjects,
                                                    _In_opt_ PVOID CompletionContext, _In_ FLT_POST_OPERATION_FLAGS Flags)
{
    PSCANNER_STREAM_HANDLE_CONTEXT scannerContext;
    PFLT_FILE_NAME_INFORMATION nameInfo;
    BOOLEAN isScanned;

    UNREFERENCED_PARAMETER(CompletionContext);

    if (FlagOn(Flags, FLTFL_POST_OPERATION_DRAINING) || !NT_SUCCESS(Data->IoStatus.Status)) {
        return FLT_POSTOP_FINISHED_PROCESSING;
    }
    if (!NT_SUCCESS(FltGetFileNameInformation(Data, FLT_FILE_NAME_NORMALIZED | FLT_FILE_NAME_QUERY_DEFAULT, &nameInfo))) {
        return FLT_POSTOP_FINISHED_PROCESSING;
    }
    isScanned = ScannerHasExtension(&nameInfo->Name);
    FltReleaseFileNameInformation(nameInfo);
    if (isScanned && NT_SUCCESS(FltAllocateContext(gFilterHandle, FLT_STREAMHANDLE_CONTEXT, sizeof(SCANNER_STREAM_HANDLE_CONTEXT), PagedPool,
                                                   (PFLT_CONTEXT *)&scannerContext))) {
        scannerContext->Denied = 0;
        FltSetStreamHandleContext(FltObjects->Instance, FltObjects->FileObject, FLT_SET_CONTEXT_REPLACE_IF_EXISTS, scannerContext, NULL);
        FltReleaseContext(scannerContext);
    }
    return FLT_POSTOP_FINISHED_PROCESSING;
}

static FLT_PREOP_CALLBACK_STATUS ScannerPreWrite(_Inout_ PFLT_CALLBACK_DATA Data, _In_ PCFLT_RELATED_OBJECTS FltObjects,
                                                 _Flt_CompletionContext_Outptr_ PVOID *CompletionContext)
{
    PSCANNER_STREAM_HANDLE_CONTEXT scannerContext;
    FLT_PREOP_CALLBACK_STATUS returnStatus = FLT_PREOP_SUCCESS_NO_CALLBACK;
    BOOLEAN isFoul;
    PVOID buffer;
    NTSTATUS status;

    UNREFERENCED_PARAMETER(CompletionContext);

    if (!NT_SUCCESS(FltGetStreamHandleContext(FltObjects->Instance, FltObjects->FileObject, (PFLT_CONTEXT *)&scannerContext))) {
        return FLT_PREOP_SUCCESS_NO_CALLBACK;
    }
    if (Data->Iopb->Parameters.Write.MdlAddress != NULL) {
        buffer = MmGetSystemAddressForMdlSafe(Data->Iopb->Parameters.Write.MdlAddress, NormalPagePriority);
    } else {
        buffer = Data->Iopb->Parameters.Write.WriteBuffer;
    }
    status = buffer == NULL ? STATUS_INSUFFICIENT_RESOURCES : ScannerLook(buffer, Data->Iopb->Parameters.Write.Length, &isFoul);
    if (!NT_SUCCESS(status)) {
        Data->IoStatus.Status = status;
        Data->IoStatus.Information = 0;
        returnStatus = FLT_PREOP_COMPLETE;
    } else if (isFoul) {
        DbgPrint("Scanner: a foul write of %u bytes is denied\n", Data->Iopb->Parameters.Write.Length);
        InterlockedIncrement(&scannerContext->Denied);
        Data->IoStatus.Status = STATUS_ACCESS_DENIED;
        Data->IoStatus.Information = 0;
        returnStatus = FLT_PREOP_COMPLETE;
    }
    FltReleaseContext(scannerContext);
    return returnStatus;
}

static FLT_PREOP_CALLBACK_STATUS ScannerPreSetInformation(_Inout_ PFLT_CALLBACK_DATA Data, _In_ PCFLT_RELATED_OBJECTS FltObjects,
                                                          _Flt_CompletionContext_Outptr_ PVOID *CompletionContext)
{
    PSCANNER_STREAM_HANDLE_CONTEXT scannerContext;
    BOOLEAN isDenied;

    UNREFERENCED_PARAMETER(CompletionContext);

    if (Data->Iopb->Parameters.SetFileInformation.FileInformationClass != FileDispositionInformation ||
        !NT_SUCCESS(FltGetStreamHandleContext(FltObjects->Instance, FltObjects->FileObject, (PFLT_CONTEXT *)&scannerContext))) {
        return FLT_PREOP_SUCCESS_NO_CALLBACK;
    }
    isDenied = scannerContext->Denied > 0;
    FltReleaseContext(scannerContext);
    if (!isDenied) {
        return FLT_PREOP_SUCCESS_NO_CALLBACK;
    }
    DbgPrint("Scanner: the file stays\n");
    Data->IoStatus.Status = STATUS_ACCESS_DENIED;
    Data->IoStatus.Information = 0;
    return FLT_PREOP_COMPLETE;
}

static NTSTATUS ScannerQueryTeardown(_In_ PCFLT_RELATED_OBJECTS FltObjects, _In_ FLT_INSTANCE_QUERY_TEARDOWN_FLAGS Flags)
{
    UNREFERENCED_PARAMETER(FltObjects);
    UNREFERENCED_PARAMETER(Flags);
    return STATUS_FLT_DO_NOT_DETACH;
}

static NTSTATUS ScannerUnload(_In_ FLT_FILTER_UNLOAD_FLAGS Flags)
{
    UNREFERENCED_PARAMETER(Flags);
    FltUnregisterFilter(gFilterHandle);
    return STATUS_SUCCESS;
}

CONST FLT_OPERATION_REGISTRATION Callbacks[] = {{IRP_MJ_CREATE, 0, NULL, ScannerPostCreate},
                                                {IRP_MJ_WRITE, 0, ScannerPreWrite, NULL},
                                                {IRP_MJ_SET_INFORMATION, 0, ScannerPreSetInformation, NULL},
                                                {IRP_MJ_OPERATION_END}};

CONST FLT_CONTEXT_REGISTRATION ContextRegistration[] = {
    {FLT_STREAMHANDLE_CONTEXT, 0, NULL, sizeof(SCANNER_STREAM_HANDLE_CONTEXT), SCANNER_TAG}, {FLT_CONTEXT_END}};

CONST FLT_REGISTRATION FilterRegistration = {
    sizeof(FLT_REGISTRATION), FLT_REGISTRATION_VERSION, 0, ContextRegistration, Callbacks, ScannerUnload, NULL, ScannerQueryTeardown, NULL, NULL};

NTSTATUS DriverEntry(_In_ PDRIVER_OBJECT DriverObject, _In_ PUNICODE_STRING RegistryPath)
{
    NTSTATUS status;

    UNREFERENCED_PARAMETER(RegistryPath);

    status = FltRegisterFilter(DriverObject, &FilterRegistration, &gFilterHandle);
    if (NT_SUCCESS(status)) {
        status = FltStartFiltering(gFilterHandle);
        if (!NT_SUCCESS(status)) {
            FltUnregisterFilter(gFilterHandle);
        }
    }
    return status;
}
