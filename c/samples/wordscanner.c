/* A scanner of files with an extension on a list from the registry: it looks at what is written, remembers in a stream context that a foul word came by, and says so
 * when such a file is opened again, and when a handle that may write is cleaned up. It can't read the file itself, since a filter begins no I/O here. */
#include <fltKernel.h>
#include <dontuse.h>
#include <suppress.h>

#define SCANNER_REG_TAG 'Rncs'
#define SCANNER_STRING_TAG 'Sncs'
#define SCANNER_CONTEXT_TAG 'chBS'
#define SCANNER_WORD "foul"

typedef struct _SCANNER_STREAM_CONTEXT {
    volatile LONG IsFoul;
} SCANNER_STREAM_CONTEXT, *PSCANNER_STREAM_CONTEXT;

typedef struct _SCANNER_STREAM_HANDLE_CONTEXT {
    BOOLEAN RescanRequired;
} SCANNER_STREAM_HANDLE_CONTEXT, *PSCANNER_STREAM_HANDLE_CONTEXT;

static PFLT_FILTER ScannerFilter;
static PUNICODE_STRING ScannedExtensions;
static ULONG ScannedExtensionCount;
static UNICODE_STRING ScannedExtensionDefault = RTL_CONSTANT_STRING(L"doc");

static VOID ScannerFreeExtensions(VOID)
{
    PAGED_CODE();

    while (ScannedExtensionCount > 0) {
        ScannedExtensionCount--;
        if (ScannedExtensions != &ScannedExtensionDefault) {
            ExFreePoolWithTag(ScannedExtensions[ScannedExtensionCount].Buffer, SCANNER_STRING_TAG);
        }
    }
    if (ScannedExtensions != &ScannedExtensionDefault && ScannedExtensions != NULL) {
        ExFreePoolWithTag(ScannedExtensions, SCANNER_STRING_TAG);
    }
    ScannedExtensions = NULL;
}

/* The texts of a value, one behind the other, each with a null at its end. */
static NTSTATUS ScannerCopyExtensions(_In_ PCWSTR Texts)
{
    ULONG count = 0;
    PCWSTR at;
    SIZE_T length;

    for (at = Texts; *at != UNICODE_NULL; at += wcslen(at) + 1) {
        count++;
    }
    if (count == 0) {
        return STATUS_NOT_FOUND;
    }
    ScannedExtensions = ExAllocatePoolWithTag(PagedPool, count * sizeof(UNICODE_STRING), SCANNER_STRING_TAG);
    if (ScannedExtensions == NULL) {
        return STATUS_INSUFFICIENT_RESOURCES;
    }
    for (at = Texts; ScannedExtensionCount < count; at += length / sizeof(WCHAR) + 1) {
        length = wcslen(at) * sizeof(WCHAR);
        ScannedExtensions[ScannedExtensionCount].Buffer = ExAllocatePoolWithTag(PagedPool, length, SCANNER_STRING_TAG);
        if (ScannedExtensions[ScannedExtensionCount].Buffer == NULL) {
            return STATUS_INSUFFICIENT_RESOURCES;
        }
        ScannedExtensions[ScannedExtensionCount].Length = ScannedExtensions[ScannedExtensionCount].MaximumLength = (USHORT)length;
        RtlCopyMemory(ScannedExtensions[ScannedExtensionCount].Buffer, at, length);
        ScannedExtensionCount++;
    }
    return STATUS_SUCCESS;
}

static NTSTATUS ScannerInitializeScannedExtensions(_In_ PUNICODE_STRING RegistryPath)
{
    OBJECT_ATTRIBUTES attributes;
    HANDLE driverRegKey = NULL;
    UNICODE_STRING valueName;
    PKEY_VALUE_PARTIAL_INFORMATION valueBuffer = NULL;
    ULONG valueLength = 0;
    NTSTATUS status;

    PAGED_CODE();

    InitializeObjectAttributes(&attributes, RegistryPath, OBJ_CASE_INSENSITIVE | OBJ_KERNEL_HANDLE, NULL, NULL);
    status = ZwOpenKey(&driverRegKey, KEY_READ, &attributes);
    if (!NT_SUCCESS(status)) {
        goto Cleanup;
    }
    RtlInitUnicodeString(&valueName, L"Extensions");
    status = ZwQueryValueKey(driverRegKey, &valueName, KeyValuePartialInformation, NULL, 0, &valueLength);
    if (status != STATUS_BUFFER_TOO_SMALL && status != STATUS_BUFFER_OVERFLOW) {
        goto Cleanup;
    }
    valueBuffer = ExAllocatePoolWithTag(PagedPool, valueLength, SCANNER_REG_TAG);
    if (valueBuffer == NULL) {
        status = STATUS_INSUFFICIENT_RESOURCES;
        goto Cleanup;
    }
    status = ZwQueryValueKey(driverRegKey, &valueName, KeyValuePartialInformation, valueBuffer, valueLength, &valueLength);
    if (NT_SUCCESS(status)) {
        status = ScannerCopyExtensions((PCWSTR)valueBuffer->Data);
    }

Cleanup:
    if (valueBuffer != NULL) {
        ExFreePoolWithTag(valueBuffer, SCANNER_REG_TAG);
    }
    if (driverRegKey != NULL) {
        ZwClose(driverRegKey);
    }
    if (!NT_SUCCESS(status)) {
        ScannerFreeExtensions();
    }
    return status;
}

static BOOLEAN ScannerIsScanned(_In_ PFLT_CALLBACK_DATA Data)
{
    PFLT_FILE_NAME_INFORMATION nameInfo;
    BOOLEAN isScanned = FALSE;
    ULONG count;

    if (!NT_SUCCESS(FltGetFileNameInformation(Data, FLT_FILE_NAME_NORMALIZED | FLT_FILE_NAME_QUERY_DEFAULT, &nameInfo))) {
        return FALSE;
    }
    FltParseFileNameInformation(nameInfo);
    for (count = 0; count < ScannedExtensionCount && nameInfo->Extension.Length != 0; count++) {
        isScanned = isScanned || RtlCompareUnicodeString(&nameInfo->Extension, ScannedExtensions + count, TRUE) == 0;
    }
    FltReleaseFileNameInformation(nameInfo);
    return isScanned;
}

/* The context of a stream, which is made if it isn't there. */
static NTSTATUS ScannerFindContext(_In_ PCFLT_RELATED_OBJECTS FltObjects, _Outptr_ PSCANNER_STREAM_CONTEXT *Context)
{
    PSCANNER_STREAM_CONTEXT made;
    PSCANNER_STREAM_CONTEXT old = NULL;
    NTSTATUS status;

    status = FltGetStreamContext(FltObjects->Instance, FltObjects->FileObject, (PFLT_CONTEXT *)Context);
    if (status != STATUS_NOT_FOUND) {
        return status;
    }
    status = FltAllocateContext(ScannerFilter, FLT_STREAM_CONTEXT, sizeof(SCANNER_STREAM_CONTEXT), PagedPool, (PFLT_CONTEXT *)&made);
    if (!NT_SUCCESS(status)) {
        return status;
    }
    made->IsFoul = FALSE;
    status = FltSetStreamContext(FltObjects->Instance, FltObjects->FileObject, FLT_SET_CONTEXT_KEEP_IF_EXISTS, made, (PFLT_CONTEXT *)&old);
    if (status == STATUS_FLT_CONTEXT_ALREADY_DEFINED) {
        FltReleaseContext(made);
        made = old;
        status = STATUS_SUCCESS;
    } else if (!NT_SUCCESS(status)) {
        FltReleaseContext(made);
        return status;
    }
    *Context = made;
    return status;
}

static FLT_POSTOP_CALLBACK_STATUS ScannerPostCreate(_Inout_ PFLT_CALLBACK_DATA Data, _In_ PCFLT_RELATED_OBJECTS FltObjects, _In_opt_ PVOID CompletionContext,
                                                    _In_ FLT_POST_OPERATION_FLAGS Flags)
{
    PSCANNER_STREAM_CONTEXT streamContext;
    PSCANNER_STREAM_HANDLE_CONTEXT scannerContext;

    UNREFERENCED_PARAMETER(CompletionContext);

    if (FlagOn(Flags, FLTFL_POST_OPERATION_DRAINING) || !NT_SUCCESS(Data->IoStatus.Status) || Data->IoStatus.Status == STATUS_REPARSE ||
        !ScannerIsScanned(Data) || !NT_SUCCESS(ScannerFindContext(FltObjects, &streamContext))) {
        return FLT_POSTOP_FINISHED_PROCESSING;
    }
    if (streamContext->IsFoul) {
        DbgPrint("Scanner: a foul file is opened by process %u\n", FltGetRequestorProcessId(Data));
    }
    if (FltObjects->FileObject->WriteAccess &&
        NT_SUCCESS(FltAllocateContext(ScannerFilter, FLT_STREAMHANDLE_CONTEXT, sizeof(SCANNER_STREAM_HANDLE_CONTEXT), PagedPool, (PFLT_CONTEXT *)&scannerContext))) {
        scannerContext->RescanRequired = TRUE;
        FltSetStreamHandleContext(FltObjects->Instance, FltObjects->FileObject, FLT_SET_CONTEXT_REPLACE_IF_EXISTS, scannerContext, NULL);
        FltReleaseContext(scannerContext);
    }
    FltReleaseContext(streamContext);
    return FLT_POSTOP_FINISHED_PROCESSING;
}

static BOOLEAN ScannerIsFoul(_In_reads_bytes_(Length) const UCHAR *Bytes, _In_ ULONG Length)
{
    ULONG at;

    for (at = 0; at + sizeof(SCANNER_WORD) - 1 <= Length; at++) {
        if (RtlEqualMemory(Bytes + at, SCANNER_WORD, sizeof(SCANNER_WORD) - 1)) {
            return TRUE;
        }
    }
    return FALSE;
}

static FLT_PREOP_CALLBACK_STATUS ScannerPreWrite(_Inout_ PFLT_CALLBACK_DATA Data, _In_ PCFLT_RELATED_OBJECTS FltObjects,
                                                 _Flt_CompletionContext_Outptr_ PVOID *CompletionContext)
{
    FLT_PREOP_CALLBACK_STATUS returnStatus = FLT_PREOP_SUCCESS_NO_CALLBACK;
    PSCANNER_STREAM_CONTEXT streamContext = NULL;
    PUCHAR buffer;

    UNREFERENCED_PARAMETER(CompletionContext);

    if (FlagOn(Data->Iopb->IrpFlags, IRP_PAGING_IO) ||
        !NT_SUCCESS(FltGetStreamContext(FltObjects->Instance, FltObjects->FileObject, (PFLT_CONTEXT *)&streamContext))) {
        return FLT_PREOP_SUCCESS_NO_CALLBACK;
    }
    try {
        if (!NT_SUCCESS(FltLockUserBuffer(Data))) {
            Data->IoStatus.Status = STATUS_INSUFFICIENT_RESOURCES;
            Data->IoStatus.Information = 0;
            returnStatus = FLT_PREOP_COMPLETE;
            leave;
        }
        buffer = Data->Iopb->Parameters.Write.MdlAddress != NULL
                     ? MmGetSystemAddressForMdlSafe(Data->Iopb->Parameters.Write.MdlAddress, NormalPagePriority | MdlMappingNoExecute)
                     : Data->Iopb->Parameters.Write.WriteBuffer;
        if (buffer != NULL && ScannerIsFoul(buffer, Data->Iopb->Parameters.Write.Length)) {
            InterlockedExchange(&streamContext->IsFoul, TRUE);
        }
    } finally {
        FltReleaseContext(streamContext);
    }
    return returnStatus;
}

static FLT_PREOP_CALLBACK_STATUS ScannerPreCleanup(_Inout_ PFLT_CALLBACK_DATA Data, _In_ PCFLT_RELATED_OBJECTS FltObjects,
                                                   _Flt_CompletionContext_Outptr_ PVOID *CompletionContext)
{
    FLT_RELATED_CONTEXTS contexts;

    UNREFERENCED_PARAMETER(Data);
    UNREFERENCED_PARAMETER(CompletionContext);

    FltGetContexts(FltObjects, FLT_STREAM_CONTEXT | FLT_STREAMHANDLE_CONTEXT, &contexts);
    if (contexts.StreamHandleContext != NULL && ((PSCANNER_STREAM_HANDLE_CONTEXT)contexts.StreamHandleContext)->RescanRequired &&
        contexts.StreamContext != NULL && ((PSCANNER_STREAM_CONTEXT)contexts.StreamContext)->IsFoul) {
        DbgPrint("Scanner: foul language is left in %wZ\n", &FltObjects->FileObject->FileName);
    }
    FltReleaseContexts(&contexts);
    return FLT_PREOP_SUCCESS_NO_CALLBACK;
}

static NTSTATUS ScannerInstanceSetup(_In_ PCFLT_RELATED_OBJECTS FltObjects, _In_ FLT_INSTANCE_SETUP_FLAGS Flags, _In_ DEVICE_TYPE VolumeDeviceType,
                                     _In_ FLT_FILESYSTEM_TYPE VolumeFilesystemType)
{
    UNREFERENCED_PARAMETER(FltObjects);
    UNREFERENCED_PARAMETER(Flags);
    UNREFERENCED_PARAMETER(VolumeFilesystemType);

    PAGED_CODE();

    FLT_ASSERT(FltObjects->Filter == ScannerFilter);
    return VolumeDeviceType == FILE_DEVICE_NETWORK_FILE_SYSTEM ? STATUS_FLT_DO_NOT_ATTACH : STATUS_SUCCESS;
}

static NTSTATUS ScannerUnload(_In_ FLT_FILTER_UNLOAD_FLAGS Flags)
{
    UNREFERENCED_PARAMETER(Flags);

    FltUnregisterFilter(ScannerFilter);
    ScannerFreeExtensions();
    return STATUS_SUCCESS;
}

CONST FLT_OPERATION_REGISTRATION Callbacks[] = {{IRP_MJ_CREATE, 0, NULL, ScannerPostCreate},
                                                {IRP_MJ_CLEANUP, 0, ScannerPreCleanup, NULL},
                                                {IRP_MJ_WRITE, 0, ScannerPreWrite, NULL},
                                                {IRP_MJ_OPERATION_END}};

CONST FLT_CONTEXT_REGISTRATION ContextRegistration[] = {
    {FLT_STREAM_CONTEXT, 0, NULL, sizeof(SCANNER_STREAM_CONTEXT), SCANNER_CONTEXT_TAG},
    {FLT_STREAMHANDLE_CONTEXT, 0, NULL, sizeof(SCANNER_STREAM_HANDLE_CONTEXT), SCANNER_CONTEXT_TAG},
    {FLT_CONTEXT_END}};

CONST FLT_REGISTRATION FilterRegistration = {
    sizeof(FLT_REGISTRATION), FLT_REGISTRATION_VERSION, 0, ContextRegistration, Callbacks, ScannerUnload, ScannerInstanceSetup, NULL, NULL, NULL};

NTSTATUS DriverEntry(_In_ PDRIVER_OBJECT DriverObject, _In_ PUNICODE_STRING RegistryPath)
{
    NTSTATUS status;

    if (!NT_SUCCESS(ScannerInitializeScannedExtensions(RegistryPath))) {
        ScannedExtensions = &ScannedExtensionDefault;
        ScannedExtensionCount = 1;
    }
    status = FltRegisterFilter(DriverObject, &FilterRegistration, &ScannerFilter);
    if (NT_SUCCESS(status)) {
        status = FltStartFiltering(ScannerFilter);
        if (!NT_SUCCESS(status)) {
            FltUnregisterFilter(ScannerFilter);
        }
    }
    if (!NT_SUCCESS(status)) {
        ScannerFreeExtensions();
    }
    return status;
}
