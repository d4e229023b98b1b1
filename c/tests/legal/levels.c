/* What may be done at each IRQL. A read's postoperation is at DISPATCH_LEVEL: it takes a spin lock, gives back a context and memory that isn't paged, queues a work item, and puts off what needs
 * a lower level. A write's is synchronized, and so may do all. Nothing of it is told. */
#include <fltKernel.h>

#define LEVELS_TAG 'lveL'

static PFLT_FILTER gFilter;
static KSPIN_LOCK gLock;
static FAST_MUTEX gMutex;
static ULONG gReads, gNames;

static FLT_PREOP_CALLBACK_STATUS PreRead(_Inout_ PFLT_CALLBACK_DATA Data, _In_ PCFLT_RELATED_OBJECTS FltObjects, _Flt_CompletionContext_Outptr_ PVOID *CompletionContext)
{
    UNREFERENCED_PARAMETER(Data);
    if (!NT_SUCCESS(FltGetInstanceContext(FltObjects->Instance, CompletionContext))) {
        *CompletionContext = NULL;
    }
    return FLT_PREOP_SUCCESS_WITH_CALLBACK;
}

static FLT_POSTOP_CALLBACK_STATUS SafePostRead(_Inout_ PFLT_CALLBACK_DATA Data, _In_ PCFLT_RELATED_OBJECTS FltObjects, _In_opt_ PVOID CompletionContext, _In_ FLT_POST_OPERATION_FLAGS Flags)
{
    PFLT_FILE_NAME_INFORMATION name;

    UNREFERENCED_PARAMETER(FltObjects);
    UNREFERENCED_PARAMETER(CompletionContext);
    UNREFERENCED_PARAMETER(Flags);
    PAGED_CODE();
    /* In paging I/O no name may be asked for. */
    if (!FlagOn(Data->Iopb->IrpFlags, IRP_PAGING_IO) && NT_SUCCESS(FltGetFileNameInformation(Data, FLT_FILE_NAME_NORMALIZED | FLT_FILE_NAME_QUERY_DEFAULT, &name))) {
        ExAcquireFastMutex(&gMutex);
        gNames++;
        ExReleaseFastMutex(&gMutex);
        FltReleaseFileNameInformation(name);
    }
    return FLT_POSTOP_FINISHED_PROCESSING;
}

static FLT_POSTOP_CALLBACK_STATUS PostRead(_Inout_ PFLT_CALLBACK_DATA Data, _In_ PCFLT_RELATED_OBJECTS FltObjects, _In_opt_ PVOID CompletionContext, _In_ FLT_POST_OPERATION_FLAGS Flags)
{
    FLT_POSTOP_CALLBACK_STATUS status = FLT_POSTOP_FINISHED_PROCESSING;
    PVOID memory;
    KIRQL irql;

    if (CompletionContext != NULL) {
        FltReleaseContext(CompletionContext);
    }
    if (FlagOn(Flags, FLTFL_POST_OPERATION_DRAINING)) {
        return status;
    }
    KeAcquireSpinLock(&gLock, &irql);
    gReads++;
    KeReleaseSpinLock(&gLock, irql);
    memory = ExAllocatePoolWithTag(NonPagedPoolNx, 16, LEVELS_TAG);
    if (memory != NULL) {
        ExFreePoolWithTag(memory, LEVELS_TAG);
    }
    if (!FltDoCompletionProcessingWhenSafe(Data, FltObjects, NULL, Flags, SafePostRead, &status)) {
        status = FLT_POSTOP_FINISHED_PROCESSING;
    }
    return status;
}

static FLT_PREOP_CALLBACK_STATUS PreWrite(_Inout_ PFLT_CALLBACK_DATA Data, _In_ PCFLT_RELATED_OBJECTS FltObjects, _Flt_CompletionContext_Outptr_ PVOID *CompletionContext)
{
    UNREFERENCED_PARAMETER(Data);
    UNREFERENCED_PARAMETER(FltObjects);
    UNREFERENCED_PARAMETER(CompletionContext);
    return FLT_PREOP_SYNCHRONIZE;
}

static FLT_POSTOP_CALLBACK_STATUS PostWrite(_Inout_ PFLT_CALLBACK_DATA Data, _In_ PCFLT_RELATED_OBJECTS FltObjects, _In_opt_ PVOID CompletionContext, _In_ FLT_POST_OPERATION_FLAGS Flags)
{
    return SafePostRead(Data, FltObjects, CompletionContext, Flags);
}

static NTSTATUS Setup(_In_ PCFLT_RELATED_OBJECTS FltObjects, _In_ FLT_INSTANCE_SETUP_FLAGS Flags, _In_ DEVICE_TYPE VolumeDeviceType, _In_ FLT_FILESYSTEM_TYPE VolumeFilesystemType)
{
    PFLT_CONTEXT context;

    UNREFERENCED_PARAMETER(Flags);
    UNREFERENCED_PARAMETER(VolumeDeviceType);
    UNREFERENCED_PARAMETER(VolumeFilesystemType);
    if (NT_SUCCESS(FltAllocateContext(gFilter, FLT_INSTANCE_CONTEXT, 32, NonPagedPool, &context))) {
        FltSetInstanceContext(FltObjects->Instance, FLT_SET_CONTEXT_KEEP_IF_EXISTS, context, NULL);
        FltReleaseContext(context);
    }
    return STATUS_SUCCESS;
}

static NTSTATUS QueryTeardown(_In_ PCFLT_RELATED_OBJECTS FltObjects, _In_ FLT_INSTANCE_QUERY_TEARDOWN_FLAGS Flags)
{
    UNREFERENCED_PARAMETER(FltObjects);
    UNREFERENCED_PARAMETER(Flags);
    return STATUS_SUCCESS;
}

/* Its cleanup is at a level where paged code may run, whoever gives up the last reference. */
static VOID Cleanup(_In_ PFLT_CONTEXT Context, _In_ FLT_CONTEXT_TYPE ContextType)
{
    UNREFERENCED_PARAMETER(Context);
    UNREFERENCED_PARAMETER(ContextType);
    PAGED_CODE();
}

static NTSTATUS Unload(_In_ FLT_FILTER_UNLOAD_FLAGS Flags)
{
    UNREFERENCED_PARAMETER(Flags);
    FltUnregisterFilter(gFilter);
    return STATUS_SUCCESS;
}

static const FLT_CONTEXT_REGISTRATION Contexts[] = {{FLT_INSTANCE_CONTEXT, 0, Cleanup, 32, LEVELS_TAG}, {FLT_CONTEXT_END}};
static const FLT_OPERATION_REGISTRATION Operations[] = {{IRP_MJ_READ, 0, PreRead, PostRead}, {IRP_MJ_WRITE, 0, PreWrite, PostWrite}, {IRP_MJ_OPERATION_END}};

NTSTATUS DriverEntry(_In_ PDRIVER_OBJECT DriverObject, _In_ PUNICODE_STRING RegistryPath)
{
    FLT_REGISTRATION registration = {.Size = sizeof(FLT_REGISTRATION), .Version = FLT_REGISTRATION_VERSION, .ContextRegistration = Contexts, .OperationRegistration = Operations, .FilterUnloadCallback = Unload, .InstanceSetupCallback = Setup, .InstanceQueryTeardownCallback = QueryTeardown};
    NTSTATUS status;

    UNREFERENCED_PARAMETER(RegistryPath);
    KeInitializeSpinLock(&gLock);
    ExInitializeFastMutex(&gMutex);
    status = FltRegisterFilter(DriverObject, &registration, &gFilter);
    return NT_SUCCESS(status) ? FltStartFiltering(gFilter) : status;
}
