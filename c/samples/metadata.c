/* A filter that keeps a file of its own below itself on each volume: how often it was attached, and how much was written. The file is opened at the setup of the instance, written at
 * each cleanup of a file that was written, and closed at the teardown's start. Nobody else may open it. */
#include <fltKernel.h>

#define META_TAG 'ateM'
#define META_SIGNATURE 0x6174654d

typedef struct _META_DATA {
    ULONG Signature;
    ULONG Attached;
    ULONGLONG Written;
} META_DATA, *PMETA_DATA;

typedef struct _META_INSTANCE_CONTEXT {
    FAST_MUTEX Lock; /* guards the data, and is free while the file is read or written */
    META_DATA Data;
    BOOLEAN IsDirty;
    HANDLE Handle;
    PFILE_OBJECT File;
    EX_RUNDOWN_REF Uses; /* of the file */
} META_INSTANCE_CONTEXT, *PMETA_INSTANCE_CONTEXT;

PFLT_FILTER gFilterHandle;
static const UNICODE_STRING gName = RTL_CONSTANT_STRING(L"\\metadata.dat");

/* ---- The file. */
static NTSTATUS MetaOpen(_In_ PCFLT_RELATED_OBJECTS FltObjects, _Inout_ PMETA_INSTANCE_CONTEXT Context)
{
    UNICODE_STRING name;
    OBJECT_ATTRIBUTES attributes;
    IO_STATUS_BLOCK io;
    ULONG needed = 0;
    NTSTATUS status = FltGetVolumeName(FltObjects->Volume, NULL, &needed);

    if (status != STATUS_BUFFER_TOO_SMALL) {
        return status;
    }
    name.Length = 0;
    name.MaximumLength = (USHORT)needed + gName.Length;
    name.Buffer = ExAllocatePoolWithTag(PagedPool, name.MaximumLength, META_TAG);
    if (name.Buffer == NULL) {
        return STATUS_INSUFFICIENT_RESOURCES;
    }
    status = FltGetVolumeName(FltObjects->Volume, &name, NULL);
    if (NT_SUCCESS(status)) {
        RtlAppendUnicodeStringToString(&name, &gName);
        InitializeObjectAttributes(&attributes, &name, OBJ_KERNEL_HANDLE | OBJ_CASE_INSENSITIVE, NULL, NULL);
        status = FltCreateFile(FltObjects->Filter, FltObjects->Instance, &Context->Handle, FILE_ALL_ACCESS, &attributes, &io, NULL,
                               FILE_ATTRIBUTE_HIDDEN | FILE_ATTRIBUTE_SYSTEM, FILE_SHARE_READ, FILE_OPEN_IF,
                               FILE_NON_DIRECTORY_FILE | FILE_SYNCHRONOUS_IO_NONALERT, NULL, 0, 0);
    }
    ExFreePoolWithTag(name.Buffer, META_TAG);
    if (!NT_SUCCESS(status)) {
        Context->Handle = NULL;
        return status;
    }
    status = ObReferenceObjectByHandle(Context->Handle, FILE_ALL_ACCESS, *IoFileObjectType, KernelMode, (PVOID *)&Context->File, NULL);
    if (!NT_SUCCESS(status)) {
        FltClose(Context->Handle);
        Context->Handle = NULL;
    }
    return status;
}

/* A new file has no bytes yet. */
static NTSTATUS MetaRead(_In_ PFLT_INSTANCE Instance, _Inout_ PMETA_INSTANCE_CONTEXT Context)
{
    LARGE_INTEGER offset = {.QuadPart = 0};
    ULONG done = 0;
    NTSTATUS status = FltReadFile(Instance, Context->File, &offset, sizeof(META_DATA), &Context->Data, FLTFL_IO_OPERATION_DO_NOT_UPDATE_BYTE_OFFSET, &done, NULL, NULL);

    if (status == STATUS_END_OF_FILE || (NT_SUCCESS(status) && (done < sizeof(META_DATA) || Context->Data.Signature != META_SIGNATURE))) {
        RtlZeroMemory(&Context->Data, sizeof(META_DATA));
        Context->Data.Signature = META_SIGNATURE;
        status = STATUS_SUCCESS;
    }
    return status;
}

static VOID MetaWrite(_In_ PFLT_INSTANCE Instance, _Inout_ PMETA_INSTANCE_CONTEXT Context)
{
    LARGE_INTEGER offset = {.QuadPart = 0};
    META_DATA data;
    BOOLEAN isDirty;
    ULONG done;

    if (!ExAcquireRundownProtection(&Context->Uses)) {
        return;
    }
    ExAcquireFastMutex(&Context->Lock);
    data = Context->Data;
    isDirty = Context->IsDirty;
    Context->IsDirty = FALSE;
    ExReleaseFastMutex(&Context->Lock);
    if (isDirty && !NT_SUCCESS(FltWriteFile(Instance, Context->File, &offset, sizeof(META_DATA), &data, FLTFL_IO_OPERATION_DO_NOT_UPDATE_BYTE_OFFSET, &done, NULL, NULL))) {
        ExAcquireFastMutex(&Context->Lock);
        Context->IsDirty = TRUE; /* the next one tries again */
        ExReleaseFastMutex(&Context->Lock);
    }
    ExReleaseRundownProtection(&Context->Uses);
}

/* ---- Callbacks. */
static VOID MetaCleanup(_In_ PFLT_CONTEXT Context, _In_ FLT_CONTEXT_TYPE ContextType)
{
    PMETA_INSTANCE_CONTEXT context = Context;

    UNREFERENCED_PARAMETER(ContextType);
    if (context->File != NULL) {
        ObDereferenceObject(context->File);
    }
    if (context->Handle != NULL) {
        FltClose(context->Handle);
    }
}

static NTSTATUS MetaInstanceSetup(_In_ PCFLT_RELATED_OBJECTS FltObjects, _In_ FLT_INSTANCE_SETUP_FLAGS Flags, _In_ DEVICE_TYPE VolumeDeviceType,
                                  _In_ FLT_FILESYSTEM_TYPE VolumeFilesystemType)
{
    PMETA_INSTANCE_CONTEXT context;
    NTSTATUS status = FltAllocateContext(gFilterHandle, FLT_INSTANCE_CONTEXT, sizeof(META_INSTANCE_CONTEXT), NonPagedPool, (PFLT_CONTEXT *)&context);

    UNREFERENCED_PARAMETER(Flags);
    UNREFERENCED_PARAMETER(VolumeDeviceType);
    UNREFERENCED_PARAMETER(VolumeFilesystemType);
    if (!NT_SUCCESS(status)) {
        return status;
    }
    RtlZeroMemory(context, sizeof(META_INSTANCE_CONTEXT));
    ExInitializeFastMutex(&context->Lock);
    ExInitializeRundownProtection(&context->Uses);
    status = MetaOpen(FltObjects, context);
    if (NT_SUCCESS(status)) {
        status = MetaRead(FltObjects->Instance, context);
    }
    if (NT_SUCCESS(status)) {
        context->Data.Attached++;
        context->IsDirty = TRUE;
        status = FltSetInstanceContext(FltObjects->Instance, FLT_SET_CONTEXT_KEEP_IF_EXISTS, context, NULL);
    }
    if (NT_SUCCESS(status)) {
        MetaWrite(FltObjects->Instance, context);
        DbgPrint("Metadata: attached %u times, %I64u bytes were written\n", context->Data.Attached, context->Data.Written);
    }
    FltReleaseContext(context);
    return status;
}

static FLT_PREOP_CALLBACK_STATUS MetaPreCreate(_Inout_ PFLT_CALLBACK_DATA Data, _In_ PCFLT_RELATED_OBJECTS FltObjects, _Flt_CompletionContext_Outptr_ PVOID *CompletionContext)
{
    UNREFERENCED_PARAMETER(CompletionContext);
    if (RtlEqualUnicodeString(&FltObjects->FileObject->FileName, &gName, TRUE)) {
        Data->IoStatus.Status = STATUS_ACCESS_DENIED;
        Data->IoStatus.Information = 0;
        return FLT_PREOP_COMPLETE;
    }
    return FLT_PREOP_SUCCESS_NO_CALLBACK;
}

static FLT_POSTOP_CALLBACK_STATUS MetaPostWrite(_Inout_ PFLT_CALLBACK_DATA Data, _In_ PCFLT_RELATED_OBJECTS FltObjects, _In_opt_ PVOID CompletionContext,
                                                _In_ FLT_POST_OPERATION_FLAGS Flags)
{
    PMETA_INSTANCE_CONTEXT context = CompletionContext;

    UNREFERENCED_PARAMETER(FltObjects);
    if (!(Flags & FLTFL_POST_OPERATION_DRAINING) && NT_SUCCESS(Data->IoStatus.Status)) {
        ExAcquireFastMutex(&context->Lock);
        context->Data.Written += Data->IoStatus.Information;
        context->IsDirty = TRUE;
        ExReleaseFastMutex(&context->Lock);
    }
    FltReleaseContext(context);
    return FLT_POSTOP_FINISHED_PROCESSING;
}

/* Synchronized: the postoperation takes a mutex. */
static FLT_PREOP_CALLBACK_STATUS MetaPreWrite(_Inout_ PFLT_CALLBACK_DATA Data, _In_ PCFLT_RELATED_OBJECTS FltObjects, _Flt_CompletionContext_Outptr_ PVOID *CompletionContext)
{
    PFLT_CONTEXT context;

    UNREFERENCED_PARAMETER(Data);
    if (!NT_SUCCESS(FltGetInstanceContext(FltObjects->Instance, &context))) {
        return FLT_PREOP_SUCCESS_NO_CALLBACK;
    }
    *CompletionContext = context;
    return FLT_PREOP_SYNCHRONIZE;
}

static FLT_PREOP_CALLBACK_STATUS MetaPreCleanup(_Inout_ PFLT_CALLBACK_DATA Data, _In_ PCFLT_RELATED_OBJECTS FltObjects, _Flt_CompletionContext_Outptr_ PVOID *CompletionContext)
{
    PMETA_INSTANCE_CONTEXT context;

    UNREFERENCED_PARAMETER(Data);
    UNREFERENCED_PARAMETER(CompletionContext);
    if (NT_SUCCESS(FltGetInstanceContext(FltObjects->Instance, (PFLT_CONTEXT *)&context))) {
        MetaWrite(FltObjects->Instance, context);
        FltReleaseContext(context);
    }
    return FLT_PREOP_SUCCESS_NO_CALLBACK;
}

static NTSTATUS MetaQueryTeardown(_In_ PCFLT_RELATED_OBJECTS FltObjects, _In_ FLT_INSTANCE_QUERY_TEARDOWN_FLAGS Flags)
{
    UNREFERENCED_PARAMETER(FltObjects);
    UNREFERENCED_PARAMETER(Flags);
    return STATUS_SUCCESS;
}

/* What uses the file comes to its end first. */
static VOID MetaTeardownStart(_In_ PCFLT_RELATED_OBJECTS FltObjects, _In_ FLT_INSTANCE_TEARDOWN_FLAGS Reason)
{
    PMETA_INSTANCE_CONTEXT context;

    UNREFERENCED_PARAMETER(Reason);
    if (NT_SUCCESS(FltGetInstanceContext(FltObjects->Instance, (PFLT_CONTEXT *)&context))) {
        MetaWrite(FltObjects->Instance, context);
        ExWaitForRundownProtectionRelease(&context->Uses);
        ObDereferenceObject(context->File);
        FltClose(context->Handle);
        context->File = NULL;
        context->Handle = NULL;
        FltReleaseContext(context);
    }
}

static NTSTATUS MetaUnload(_In_ FLT_FILTER_UNLOAD_FLAGS Flags)
{
    UNREFERENCED_PARAMETER(Flags);
    FltUnregisterFilter(gFilterHandle);
    return STATUS_SUCCESS;
}

static CONST FLT_OPERATION_REGISTRATION Operations[] = {
    {IRP_MJ_CREATE, 0, MetaPreCreate, NULL},
    {IRP_MJ_WRITE, FLTFL_OPERATION_REGISTRATION_SKIP_PAGING_IO, MetaPreWrite, MetaPostWrite},
    {IRP_MJ_CLEANUP, 0, MetaPreCleanup, NULL},
    {IRP_MJ_OPERATION_END},
};

static CONST FLT_CONTEXT_REGISTRATION Contexts[] = {
    {FLT_INSTANCE_CONTEXT, 0, MetaCleanup, sizeof(META_INSTANCE_CONTEXT), META_TAG},
    {FLT_CONTEXT_END},
};

static CONST FLT_REGISTRATION Registration = {
    .Size = sizeof(FLT_REGISTRATION),
    .Version = FLT_REGISTRATION_VERSION,
    .ContextRegistration = Contexts,
    .OperationRegistration = Operations,
    .FilterUnloadCallback = MetaUnload,
    .InstanceSetupCallback = MetaInstanceSetup,
    .InstanceQueryTeardownCallback = MetaQueryTeardown,
    .InstanceTeardownStartCallback = MetaTeardownStart,
};

NTSTATUS DriverEntry(_In_ PDRIVER_OBJECT DriverObject, _In_ PUNICODE_STRING RegistryPath)
{
    NTSTATUS status;

    UNREFERENCED_PARAMETER(RegistryPath);
    status = FltRegisterFilter(DriverObject, &Registration, &gFilterHandle);
    if (!NT_SUCCESS(status)) {
        return status;
    }
    status = FltStartFiltering(gFilterHandle);
    if (!NT_SUCCESS(status)) {
        FltUnregisterFilter(gFilterHandle);
    }
    return status;
}
