/* Contexts of an instance, a stream and a stream handle: each is allocated, set, got, handed from a preoperation to its postoperation, and cleaned up. */
#include <fltKernel.h>

#define CTX_NAME_TAG 'mNxC'
#define CTX_STREAM_TAG 'cSxC'
#define CTX_HANDLE_TAG 'cHxC'
#define CTX_INSTANCE_TAG 'cIxC'

typedef struct _CTX_INSTANCE_CONTEXT {
    LONG Streams;
} CTX_INSTANCE_CONTEXT, *PCTX_INSTANCE_CONTEXT;

typedef struct _CTX_STREAM_CONTEXT {
    UNICODE_STRING FileName;
    LONG Creates;
    LONG Writes;
    LONG Reads;
} CTX_STREAM_CONTEXT, *PCTX_STREAM_CONTEXT;

typedef struct _CTX_STREAMHANDLE_CONTEXT {
    LONG Written;
} CTX_STREAMHANDLE_CONTEXT, *PCTX_STREAMHANDLE_CONTEXT;

PFLT_FILTER gFilterHandle;

static VOID CtxContextCleanup(_In_ PFLT_CONTEXT Context, _In_ FLT_CONTEXT_TYPE ContextType)
{
    PCTX_INSTANCE_CONTEXT instanceContext;
    PCTX_STREAM_CONTEXT streamContext;
    PCTX_STREAMHANDLE_CONTEXT streamHandleContext;

    PAGED_CODE();

    switch (ContextType) {
    case FLT_INSTANCE_CONTEXT:
        instanceContext = (PCTX_INSTANCE_CONTEXT)Context;
        DbgPrint("[Ctx]: instance had %u streams\n", instanceContext->Streams);
        break;

    case FLT_STREAM_CONTEXT:
        streamContext = (PCTX_STREAM_CONTEXT)Context;
        DbgPrint("[Ctx]: %wZ: %u creates, %u writes, %u reads\n", &streamContext->FileName, streamContext->Creates, streamContext->Writes,
                 streamContext->Reads);
        if (streamContext->FileName.Buffer != NULL) {
            ExFreePoolWithTag(streamContext->FileName.Buffer, CTX_NAME_TAG);
        }
        break;

    case FLT_STREAMHANDLE_CONTEXT:
        streamHandleContext = (PCTX_STREAMHANDLE_CONTEXT)Context;
        DbgPrint("[Ctx]: handle wrote %u bytes\n", streamHandleContext->Written);
        break;
    }
}

static NTSTATUS CtxCreateStreamContext(_In_ PFLT_CALLBACK_DATA Data, _Outptr_ PCTX_STREAM_CONTEXT *StreamContext)
{
    NTSTATUS status;
    PCTX_STREAM_CONTEXT streamContext;
    PFLT_FILE_NAME_INFORMATION nameInfo;

    status = FltAllocateContext(gFilterHandle, FLT_STREAM_CONTEXT, sizeof(CTX_STREAM_CONTEXT), NonPagedPoolNx, (PFLT_CONTEXT *)&streamContext);
    if (!NT_SUCCESS(status)) {
        return status;
    }
    RtlZeroMemory(streamContext, sizeof(CTX_STREAM_CONTEXT));

    status = FltGetFileNameInformation(Data, FLT_FILE_NAME_NORMALIZED | FLT_FILE_NAME_QUERY_DEFAULT, &nameInfo);
    if (NT_SUCCESS(status)) {
        streamContext->FileName.MaximumLength = nameInfo->Name.Length;
        streamContext->FileName.Buffer = ExAllocatePoolWithTag(PagedPool, nameInfo->Name.Length, CTX_NAME_TAG);
        if (streamContext->FileName.Buffer != NULL) {
            RtlCopyUnicodeString(&streamContext->FileName, &nameInfo->Name);
        }
        FltReleaseFileNameInformation(nameInfo);
    }
    *StreamContext = streamContext;
    return STATUS_SUCCESS;
}

static NTSTATUS CtxFindOrCreateStreamContext(_In_ PFLT_CALLBACK_DATA Data, _In_ PCFLT_RELATED_OBJECTS FltObjects,
                                             _Outptr_ PCTX_STREAM_CONTEXT *StreamContext)
{
    NTSTATUS status;
    PCTX_STREAM_CONTEXT streamContext;
    PCTX_STREAM_CONTEXT oldStreamContext;
    PCTX_INSTANCE_CONTEXT instanceContext;

    status = FltGetStreamContext(FltObjects->Instance, FltObjects->FileObject, (PFLT_CONTEXT *)&streamContext);
    if (status == STATUS_NOT_FOUND) {
        status = CtxCreateStreamContext(Data, &streamContext);
        if (!NT_SUCCESS(status)) {
            return status;
        }
        status = FltSetStreamContext(FltObjects->Instance, FltObjects->FileObject, FLT_SET_CONTEXT_KEEP_IF_EXISTS, streamContext,
                                     (PFLT_CONTEXT *)&oldStreamContext);
        if (status == STATUS_FLT_CONTEXT_ALREADY_DEFINED) {
            FltReleaseContext(streamContext);
            streamContext = oldStreamContext;
            status = STATUS_SUCCESS;
        } else if (!NT_SUCCESS(status)) {
            FltReleaseContext(streamContext);
            return status;
        } else if (NT_SUCCESS(FltGetInstanceContext(FltObjects->Instance, (PFLT_CONTEXT *)&instanceContext))) {
            InterlockedIncrement(&instanceContext->Streams);
            FltReleaseContext(instanceContext);
        }
    }
    *StreamContext = streamContext;
    return status;
}

static VOID CtxSetStreamHandleContext(_In_ PCFLT_RELATED_OBJECTS FltObjects)
{
    NTSTATUS status;
    PCTX_STREAMHANDLE_CONTEXT streamHandleContext;

    status = FltAllocateContext(gFilterHandle, FLT_STREAMHANDLE_CONTEXT, sizeof(CTX_STREAMHANDLE_CONTEXT), PagedPool,
                                (PFLT_CONTEXT *)&streamHandleContext);
    if (!NT_SUCCESS(status)) {
        return;
    }
    RtlZeroMemory(streamHandleContext, sizeof(CTX_STREAMHANDLE_CONTEXT));
    FltSetStreamHandleContext(FltObjects->Instance, FltObjects->FileObject, FLT_SET_CONTEXT_REPLACE_IF_EXISTS, streamHandleContext, NULL);
    FltReleaseContext(streamHandleContext);
}

static FLT_PREOP_CALLBACK_STATUS CtxPreCreate(_Inout_ PFLT_CALLBACK_DATA Data, _In_ PCFLT_RELATED_OBJECTS FltObjects,
                                              _Flt_CompletionContext_Outptr_ PVOID *CompletionContext)
{
    UNREFERENCED_PARAMETER(Data);
    UNREFERENCED_PARAMETER(FltObjects);
    *CompletionContext = NULL;
    return FLT_PREOP_SUCCESS_WITH_CALLBACK;
}

static FLT_POSTOP_CALLBACK_STATUS CtxPostCreate(_Inout_ PFLT_CALLBACK_DATA Data, _In_ PCFLT_RELATED_OBJECTS FltObjects, _In_opt_ PVOID CbdContext,
                                                _In_ FLT_POST_OPERATION_FLAGS Flags)
{
    PCTX_STREAM_CONTEXT streamContext;

    UNREFERENCED_PARAMETER(CbdContext);

    if (FlagOn(Flags, FLTFL_POST_OPERATION_DRAINING) || !NT_SUCCESS(Data->IoStatus.Status)) {
        return FLT_POSTOP_FINISHED_PROCESSING;
    }
    if (NT_SUCCESS(CtxFindOrCreateStreamContext(Data, FltObjects, &streamContext))) {
        InterlockedIncrement(&streamContext->Creates);
        FltReleaseContext(streamContext);
    }
    CtxSetStreamHandleContext(FltObjects);
    return FLT_POSTOP_FINISHED_PROCESSING;
}

static FLT_PREOP_CALLBACK_STATUS CtxPreWrite(_Inout_ PFLT_CALLBACK_DATA Data, _In_ PCFLT_RELATED_OBJECTS FltObjects,
                                             _Flt_CompletionContext_Outptr_ PVOID *CompletionContext)
{
    PCTX_STREAM_CONTEXT streamContext;
    PCTX_STREAMHANDLE_CONTEXT streamHandleContext;

    UNREFERENCED_PARAMETER(CompletionContext);

    if (NT_SUCCESS(FltGetStreamContext(FltObjects->Instance, FltObjects->FileObject, (PFLT_CONTEXT *)&streamContext))) {
        InterlockedIncrement(&streamContext->Writes);
        FltReleaseContext(streamContext);
    }
    if (NT_SUCCESS(FltGetStreamHandleContext(FltObjects->Instance, FltObjects->FileObject, (PFLT_CONTEXT *)&streamHandleContext))) {
        InterlockedExchangeAdd(&streamHandleContext->Written, (LONG)Data->Iopb->Parameters.Write.Length);
        FltReleaseContext(streamHandleContext);
    }
    return FLT_PREOP_SUCCESS_NO_CALLBACK;
}

/* The stream context goes along to the postoperation, with its reference. */
static FLT_PREOP_CALLBACK_STATUS CtxPreRead(_Inout_ PFLT_CALLBACK_DATA Data, _In_ PCFLT_RELATED_OBJECTS FltObjects,
                                            _Flt_CompletionContext_Outptr_ PVOID *CompletionContext)
{
    PCTX_STREAM_CONTEXT streamContext;

    UNREFERENCED_PARAMETER(Data);

    if (!NT_SUCCESS(FltGetStreamContext(FltObjects->Instance, FltObjects->FileObject, (PFLT_CONTEXT *)&streamContext))) {
        return FLT_PREOP_SUCCESS_NO_CALLBACK;
    }
    *CompletionContext = streamContext;
    return FLT_PREOP_SUCCESS_WITH_CALLBACK;
}

static FLT_POSTOP_CALLBACK_STATUS CtxPostRead(_Inout_ PFLT_CALLBACK_DATA Data, _In_ PCFLT_RELATED_OBJECTS FltObjects, _In_opt_ PVOID CbdContext,
                                              _In_ FLT_POST_OPERATION_FLAGS Flags)
{
    PCTX_STREAM_CONTEXT streamContext = CbdContext;

    UNREFERENCED_PARAMETER(Data);
    UNREFERENCED_PARAMETER(FltObjects);

    if (!FlagOn(Flags, FLTFL_POST_OPERATION_DRAINING)) {
        InterlockedIncrement(&streamContext->Reads);
    }
    FltReleaseContext(streamContext);
    return FLT_POSTOP_FINISHED_PROCESSING;
}

static NTSTATUS CtxInstanceSetup(_In_ PCFLT_RELATED_OBJECTS FltObjects, _In_ FLT_INSTANCE_SETUP_FLAGS Flags, _In_ DEVICE_TYPE VolumeDeviceType,
                                 _In_ FLT_FILESYSTEM_TYPE VolumeFilesystemType)
{
    NTSTATUS status;
    PCTX_INSTANCE_CONTEXT instanceContext;

    UNREFERENCED_PARAMETER(Flags);
    UNREFERENCED_PARAMETER(VolumeDeviceType);
    UNREFERENCED_PARAMETER(VolumeFilesystemType);

    status = FltAllocateContext(FltObjects->Filter, FLT_INSTANCE_CONTEXT, sizeof(CTX_INSTANCE_CONTEXT), NonPagedPool, (PFLT_CONTEXT *)&instanceContext);
    if (!NT_SUCCESS(status)) {
        return status;
    }
    RtlZeroMemory(instanceContext, sizeof(CTX_INSTANCE_CONTEXT));
    status = FltSetInstanceContext(FltObjects->Instance, FLT_SET_CONTEXT_KEEP_IF_EXISTS, instanceContext, NULL);
    FltReleaseContext(instanceContext);
    return status;
}

static NTSTATUS CtxInstanceQueryTeardown(_In_ PCFLT_RELATED_OBJECTS FltObjects, _In_ FLT_INSTANCE_QUERY_TEARDOWN_FLAGS Flags)
{
    UNREFERENCED_PARAMETER(FltObjects);
    UNREFERENCED_PARAMETER(Flags);
    return STATUS_SUCCESS;
}

static NTSTATUS CtxUnload(_In_ FLT_FILTER_UNLOAD_FLAGS Flags)
{
    UNREFERENCED_PARAMETER(Flags);
    FltUnregisterFilter(gFilterHandle);
    gFilterHandle = NULL;
    return STATUS_SUCCESS;
}

CONST FLT_OPERATION_REGISTRATION Callbacks[] = {{IRP_MJ_CREATE, 0, CtxPreCreate, CtxPostCreate},
                                                {IRP_MJ_WRITE, FLTFL_OPERATION_REGISTRATION_SKIP_PAGING_IO, CtxPreWrite, NULL},
                                                {IRP_MJ_READ, FLTFL_OPERATION_REGISTRATION_SKIP_PAGING_IO, CtxPreRead, CtxPostRead},
                                                {IRP_MJ_OPERATION_END}};

CONST FLT_CONTEXT_REGISTRATION ContextRegistration[] = {
    {FLT_INSTANCE_CONTEXT, 0, CtxContextCleanup, sizeof(CTX_INSTANCE_CONTEXT), CTX_INSTANCE_TAG},
    {FLT_STREAM_CONTEXT, 0, CtxContextCleanup, sizeof(CTX_STREAM_CONTEXT), CTX_STREAM_TAG},
    {FLT_STREAMHANDLE_CONTEXT, 0, CtxContextCleanup, sizeof(CTX_STREAMHANDLE_CONTEXT), CTX_HANDLE_TAG},
    {FLT_CONTEXT_END}};

CONST FLT_REGISTRATION FilterRegistration = {sizeof(FLT_REGISTRATION), FLT_REGISTRATION_VERSION, 0,    ContextRegistration, Callbacks, CtxUnload,
                                             CtxInstanceSetup,         CtxInstanceQueryTeardown, NULL, NULL};

NTSTATUS DriverEntry(_In_ PDRIVER_OBJECT DriverObject, _In_ PUNICODE_STRING RegistryPath)
{
    NTSTATUS status;

    UNREFERENCED_PARAMETER(RegistryPath);

    status = FltRegisterFilter(DriverObject, &FilterRegistration, &gFilterHandle);
    if (NT_SUCCESS(status)) {
        status = FltStartFiltering(gFilterHandle);
        if (!NT_SUCCESS(status)) {
            FltUnregisterFilter(gFilterHandle);
        }
    }
    return status;
}
