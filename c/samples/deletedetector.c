/* Detects deletions: a disposition that was set, or a file that was opened to be deleted when it is closed, is noted in a stream context; when the last handle was cleaned
 * up, the file is said to be deleted. Two dispositions at once, which race, are counted, as their order isn't known. */
#include <fltKernel.h>
#include <dontuse.h>
#include <suppress.h>

#define DF_STREAM_TAG 'xSfD'
#define DF_NAME_TAG 'nNfD'

typedef struct _DF_STREAM_CONTEXT {
    ERESOURCE Resource;
    UNICODE_STRING Name;
    volatile LONG NumOps;
    volatile LONG IsNotified;
    LONG Handles;
    BOOLEAN SetDisp;
    BOOLEAN DeleteOnClose;
} DF_STREAM_CONTEXT, *PDF_STREAM_CONTEXT;

static PFLT_FILTER gFilterHandle;

FORCEINLINE _Acquires_lock_(_Global_critical_region_) VOID DfAcquire(_Inout_ _Requires_lock_not_held_(*_Curr_) _Acquires_lock_(*_Curr_) PERESOURCE Resource)
{
    FLT_ASSERT(KeGetCurrentIrql() <= APC_LEVEL);
    KeEnterCriticalRegion();
    (VOID)ExAcquireResourceExclusiveLite(Resource, TRUE);
}

FORCEINLINE _Releases_lock_(_Global_critical_region_) VOID DfRelease(_Inout_ _Requires_lock_held_(*_Curr_) _Releases_lock_(*_Curr_) PERESOURCE Resource)
{
    ExReleaseResourceLite(Resource);
    KeLeaveCriticalRegion();
}

static VOID DfStreamContextCleanupCallback(_In_ PFLT_CONTEXT Context, _In_ FLT_CONTEXT_TYPE ContextType)
{
    PDF_STREAM_CONTEXT streamContext = Context;

    UNREFERENCED_PARAMETER(ContextType);

    PAGED_CODE();

    FLT_ASSERT(ContextType == FLT_STREAM_CONTEXT);
    if (streamContext->Name.Buffer != NULL) {
        ExFreePoolWithTag(streamContext->Name.Buffer, DF_NAME_TAG);
    }
    ExDeleteResourceLite(&streamContext->Resource);
}

static NTSTATUS DfAllocateContext(_In_ PFLT_CALLBACK_DATA Data, _Outptr_ PDF_STREAM_CONTEXT *Context)
{
    PDF_STREAM_CONTEXT streamContext;
    PFLT_FILE_NAME_INFORMATION nameInfo;
    NTSTATUS status;

    status = FltAllocateContext(gFilterHandle, FLT_STREAM_CONTEXT, sizeof(DF_STREAM_CONTEXT), NonPagedPool, (PFLT_CONTEXT *)&streamContext);
    if (!NT_SUCCESS(status)) {
        return status;
    }
    RtlZeroMemory(streamContext, sizeof(DF_STREAM_CONTEXT));
    ExInitializeResourceLite(&streamContext->Resource);
    if (NT_SUCCESS(FltGetFileNameInformation(Data, FLT_FILE_NAME_OPENED | FLT_FILE_NAME_QUERY_DEFAULT, &nameInfo))) {
        FltParseFileNameInformation(nameInfo);
        streamContext->Name.Buffer = ExAllocatePoolWithTag(PagedPool, nameInfo->FinalComponent.Length, DF_NAME_TAG);
        if (streamContext->Name.Buffer != NULL) {
            streamContext->Name.MaximumLength = nameInfo->FinalComponent.Length;
            RtlCopyUnicodeString(&streamContext->Name, &nameInfo->FinalComponent);
        }
        FltReleaseFileNameInformation(nameInfo);
    }
    *Context = streamContext;
    return STATUS_SUCCESS;
}

static NTSTATUS DfGetOrSetContext(_In_ PFLT_CALLBACK_DATA Data, _In_ PCFLT_RELATED_OBJECTS FltObjects, _Outptr_ PDF_STREAM_CONTEXT *Context)
{
    PDF_STREAM_CONTEXT newContext;
    PDF_STREAM_CONTEXT oldContext = NULL;
    NTSTATUS status;

    status = FltGetStreamContext(FltObjects->Instance, FltObjects->FileObject, (PFLT_CONTEXT *)Context);
    if (status != STATUS_NOT_FOUND) {
        return status;
    }
    status = DfAllocateContext(Data, &newContext);
    if (!NT_SUCCESS(status)) {
        return status;
    }
    status = FltSetStreamContext(FltObjects->Instance, FltObjects->FileObject, FLT_SET_CONTEXT_KEEP_IF_EXISTS, newContext, (PFLT_CONTEXT *)&oldContext);
    if (!NT_SUCCESS(status)) {
        FltReleaseContext(newContext);
        if (status != STATUS_FLT_CONTEXT_ALREADY_DEFINED) {
            return status;
        }
        newContext = oldContext;
        status = STATUS_SUCCESS;
    }
    *Context = newContext;
    return status;
}

static FLT_PREOP_CALLBACK_STATUS DfPreCreateCallback(_Inout_ PFLT_CALLBACK_DATA Data, _In_ PCFLT_RELATED_OBJECTS FltObjects,
                                                     _Flt_CompletionContext_Outptr_ PVOID *CompletionContext)
{
    UNREFERENCED_PARAMETER(FltObjects);

    PAGED_CODE();

    *CompletionContext = (PVOID)(ULONG_PTR)FlagOn(Data->Iopb->Parameters.Create.Options, FILE_DELETE_ON_CLOSE);
    return FLT_PREOP_SYNCHRONIZE;
}

static FLT_POSTOP_CALLBACK_STATUS DfPostCreateCallback(_Inout_ PFLT_CALLBACK_DATA Data, _In_ PCFLT_RELATED_OBJECTS FltObjects, _In_ PVOID CompletionContext,
                                                       _In_ FLT_POST_OPERATION_FLAGS Flags)
{
    PDF_STREAM_CONTEXT streamContext;

    if (FlagOn(Flags, FLTFL_POST_OPERATION_DRAINING) || !NT_SUCCESS(Data->IoStatus.Status) || Data->IoStatus.Status == STATUS_REPARSE ||
        !NT_SUCCESS(DfGetOrSetContext(Data, FltObjects, &streamContext))) {
        return FLT_POSTOP_FINISHED_PROCESSING;
    }
    DfAcquire(&streamContext->Resource);
    streamContext->Handles++;
    streamContext->DeleteOnClose = BooleanFlagOn((ULONG_PTR)CompletionContext, FILE_DELETE_ON_CLOSE) || streamContext->DeleteOnClose;
    DfRelease(&streamContext->Resource);
    FltReleaseContext(streamContext);
    return FLT_POSTOP_FINISHED_PROCESSING;
}

/* The stream context goes to the postoperation, with its reference. */
static FLT_PREOP_CALLBACK_STATUS DfPreSetInfoCallback(_Inout_ PFLT_CALLBACK_DATA Data, _In_ PCFLT_RELATED_OBJECTS FltObjects,
                                                      _Flt_CompletionContext_Outptr_ PVOID *CompletionContext)
{
    PDF_STREAM_CONTEXT streamContext;

    switch (Data->Iopb->Parameters.SetFileInformation.FileInformationClass) {
    case FileDispositionInformation:
    case FileDispositionInformationEx:
        if (!NT_SUCCESS(FltGetStreamContext(FltObjects->Instance, FltObjects->FileObject, (PFLT_CONTEXT *)&streamContext))) {
            return FLT_PREOP_SUCCESS_NO_CALLBACK;
        }
        if (InterlockedIncrement(&streamContext->NumOps) > 1) {
            /* Which of them comes last isn't known. */
            FltReleaseContext(streamContext);
            return FLT_PREOP_SUCCESS_NO_CALLBACK;
        }
        *CompletionContext = streamContext;
        return FLT_PREOP_SYNCHRONIZE;
    default:
        return FLT_PREOP_SUCCESS_NO_CALLBACK;
    }
}

static FLT_POSTOP_CALLBACK_STATUS DfPostSetInfoCallback(_Inout_ PFLT_CALLBACK_DATA Data, _In_ PCFLT_RELATED_OBJECTS FltObjects, _In_ PVOID CompletionContext,
                                                        _In_ FLT_POST_OPERATION_FLAGS Flags)
{
    PDF_STREAM_CONTEXT streamContext = CompletionContext;

    UNREFERENCED_PARAMETER(FltObjects);

    if (!FlagOn(Flags, FLTFL_POST_OPERATION_DRAINING) && NT_SUCCESS(Data->IoStatus.Status)) {
        if (Data->Iopb->Parameters.SetFileInformation.FileInformationClass == FileDispositionInformationEx) {
            streamContext->SetDisp =
                BooleanFlagOn(((PFILE_DISPOSITION_INFORMATION_EX)Data->Iopb->Parameters.SetFileInformation.InfoBuffer)->Flags, FILE_DISPOSITION_DELETE);
        } else {
            streamContext->SetDisp = ((PFILE_DISPOSITION_INFORMATION)Data->Iopb->Parameters.SetFileInformation.InfoBuffer)->DeleteFile;
        }
    }
    InterlockedDecrement(&streamContext->NumOps);
    FltReleaseContext(streamContext);
    return FLT_POSTOP_FINISHED_PROCESSING;
}

static FLT_PREOP_CALLBACK_STATUS DfPreCleanupCallback(_Inout_ PFLT_CALLBACK_DATA Data, _In_ PCFLT_RELATED_OBJECTS FltObjects,
                                                      _Flt_CompletionContext_Outptr_ PVOID *CompletionContext)
{
    PDF_STREAM_CONTEXT streamContext;

    UNREFERENCED_PARAMETER(Data);

    if (!NT_SUCCESS(FltGetStreamContext(FltObjects->Instance, FltObjects->FileObject, (PFLT_CONTEXT *)&streamContext))) {
        return FLT_PREOP_SUCCESS_NO_CALLBACK;
    }
    *CompletionContext = streamContext;
    return FLT_PREOP_SYNCHRONIZE;
}

static FLT_POSTOP_CALLBACK_STATUS DfPostCleanupCallback(_Inout_ PFLT_CALLBACK_DATA Data, _In_ PCFLT_RELATED_OBJECTS FltObjects, _In_ PVOID CompletionContext,
                                                        _In_ FLT_POST_OPERATION_FLAGS Flags)
{
    PDF_STREAM_CONTEXT streamContext = CompletionContext;
    BOOLEAN isDeleted = FALSE;

    UNREFERENCED_PARAMETER(FltObjects);

    if (!FlagOn(Flags, FLTFL_POST_OPERATION_DRAINING) && NT_SUCCESS(Data->IoStatus.Status)) {
        DfAcquire(&streamContext->Resource);
        streamContext->Handles--;
        isDeleted = streamContext->Handles == 0 && (streamContext->SetDisp || streamContext->DeleteOnClose);
        DfRelease(&streamContext->Resource);
        if (isDeleted && InterlockedIncrement(&streamContext->IsNotified) == 1) {
            DbgPrint("Delete: %wZ is deleted by process %u\n", &streamContext->Name, FltGetRequestorProcessId(Data));
        }
    }
    FltReleaseContext(streamContext);
    return FLT_POSTOP_FINISHED_PROCESSING;
}

static NTSTATUS DfInstanceSetup(_In_ PCFLT_RELATED_OBJECTS FltObjects, _In_ FLT_INSTANCE_SETUP_FLAGS Flags, _In_ DEVICE_TYPE VolumeDeviceType,
                                _In_ FLT_FILESYSTEM_TYPE VolumeFilesystemType)
{
    BOOLEAN isWritable = FALSE;
    NTSTATUS status;

    UNREFERENCED_PARAMETER(Flags);
    UNREFERENCED_PARAMETER(VolumeDeviceType);
    UNREFERENCED_PARAMETER(VolumeFilesystemType);

    PAGED_CODE();

    status = FltIsVolumeWritable(FltObjects->Volume, &isWritable);
    return NT_SUCCESS(status) && isWritable ? STATUS_SUCCESS : STATUS_FLT_DO_NOT_ATTACH;
}

static NTSTATUS DfUnload(_In_ FLT_FILTER_UNLOAD_FLAGS Flags)
{
    UNREFERENCED_PARAMETER(Flags);

    PAGED_CODE();

    FltUnregisterFilter(gFilterHandle);
    gFilterHandle = NULL;
    return STATUS_SUCCESS;
}

CONST FLT_OPERATION_REGISTRATION Callbacks[] = {{IRP_MJ_CREATE, 0, DfPreCreateCallback, DfPostCreateCallback},
                                                {IRP_MJ_SET_INFORMATION, FLTFL_OPERATION_REGISTRATION_SKIP_PAGING_IO, DfPreSetInfoCallback, DfPostSetInfoCallback},
                                                {IRP_MJ_CLEANUP, 0, DfPreCleanupCallback, DfPostCleanupCallback},
                                                {IRP_MJ_OPERATION_END}};

CONST FLT_CONTEXT_REGISTRATION Contexts[] = {{FLT_STREAM_CONTEXT, 0, DfStreamContextCleanupCallback, sizeof(DF_STREAM_CONTEXT), DF_STREAM_TAG},
                                             {FLT_CONTEXT_END}};

CONST FLT_REGISTRATION FilterRegistration = {sizeof(FLT_REGISTRATION), FLT_REGISTRATION_VERSION, 0, Contexts, Callbacks, DfUnload, DfInstanceSetup};

NTSTATUS DriverEntry(_In_ PDRIVER_OBJECT DriverObject, _In_ PUNICODE_STRING RegistryPath)
{
    NTSTATUS status;

    UNREFERENCED_PARAMETER(RegistryPath);

    status = FltRegisterFilter(DriverObject, &FilterRegistration, &gFilterHandle);
    if (NT_SUCCESS(status)) {
        status = FltStartFiltering(gFilterHandle);
        if (!NT_SUCCESS(status)) {
            FltUnregisterFilter(gFilterHandle);
        }
    }
    return status;
}
