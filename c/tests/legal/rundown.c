/* Rundown protection: reads are inside while they run, some of them until a work item lets go. The teardown's start waits for all, and then frees what they used. */
#include <fltKernel.h>

#define RUNDOWN_TAG 'nduR'

static PFLT_FILTER gFilter;
static EX_RUNDOWN_REF gRundown;
static PLONG gCount;

static VOID LetGo(_In_ PFLT_GENERIC_WORKITEM FltWorkItem, _In_ PVOID FltObject, _In_opt_ PVOID Context)
{
    UNREFERENCED_PARAMETER(FltObject);
    UNREFERENCED_PARAMETER(Context);
    InterlockedIncrement(gCount);
    FltFreeGenericWorkItem(FltWorkItem);
    ExReleaseRundownProtection(&gRundown);
}

static FLT_PREOP_CALLBACK_STATUS PreRead(_Inout_ PFLT_CALLBACK_DATA Data, _In_ PCFLT_RELATED_OBJECTS FltObjects, _Flt_CompletionContext_Outptr_ PVOID *CompletionContext)
{
    PFLT_GENERIC_WORKITEM item;

    UNREFERENCED_PARAMETER(Data);
    UNREFERENCED_PARAMETER(CompletionContext);
    if (!ExAcquireRundownProtection(&gRundown)) {
        return FLT_PREOP_SUCCESS_NO_CALLBACK;
    }
    item = FltAllocateGenericWorkItem();
    if (item != NULL && NT_SUCCESS(FltQueueGenericWorkItem(item, FltObjects->Filter, LetGo, DelayedWorkQueue, NULL))) {
        return FLT_PREOP_SUCCESS_NO_CALLBACK;
    }
    if (item != NULL) {
        FltFreeGenericWorkItem(item);
    }
    InterlockedIncrement(gCount);
    ExReleaseRundownProtection(&gRundown);
    return FLT_PREOP_SUCCESS_NO_CALLBACK;
}

static NTSTATUS Setup(_In_ PCFLT_RELATED_OBJECTS FltObjects, _In_ FLT_INSTANCE_SETUP_FLAGS Flags, _In_ DEVICE_TYPE VolumeDeviceType, _In_ FLT_FILESYSTEM_TYPE VolumeFilesystemType)
{
    UNREFERENCED_PARAMETER(FltObjects);
    UNREFERENCED_PARAMETER(Flags);
    UNREFERENCED_PARAMETER(VolumeDeviceType);
    UNREFERENCED_PARAMETER(VolumeFilesystemType);
    if (gCount != NULL) {
        return STATUS_FLT_DO_NOT_ATTACH;
    }
    gCount = ExAllocatePoolZero(NonPagedPool, sizeof(LONG), RUNDOWN_TAG);
    return gCount != NULL ? STATUS_SUCCESS : STATUS_FLT_DO_NOT_ATTACH;
}

static NTSTATUS QueryTeardown(_In_ PCFLT_RELATED_OBJECTS FltObjects, _In_ FLT_INSTANCE_QUERY_TEARDOWN_FLAGS Flags)
{
    UNREFERENCED_PARAMETER(FltObjects);
    UNREFERENCED_PARAMETER(Flags);
    return STATUS_SUCCESS;
}

static VOID TeardownStart(_In_ PCFLT_RELATED_OBJECTS FltObjects, _In_ FLT_INSTANCE_TEARDOWN_FLAGS Reason)
{
    UNREFERENCED_PARAMETER(FltObjects);
    UNREFERENCED_PARAMETER(Reason);
    ExWaitForRundownProtectionRelease(&gRundown);
    ExFreePoolWithTag(gCount, RUNDOWN_TAG);
}

static NTSTATUS Unload(_In_ FLT_FILTER_UNLOAD_FLAGS Flags)
{
    UNREFERENCED_PARAMETER(Flags);
    FltUnregisterFilter(gFilter);
    return STATUS_SUCCESS;
}

static const FLT_OPERATION_REGISTRATION Operations[] = {{IRP_MJ_READ, 0, PreRead}, {IRP_MJ_OPERATION_END}};

NTSTATUS DriverEntry(_In_ PDRIVER_OBJECT DriverObject, _In_ PUNICODE_STRING RegistryPath)
{
    FLT_REGISTRATION registration = {.Size = sizeof(FLT_REGISTRATION), .Version = FLT_REGISTRATION_VERSION, .OperationRegistration = Operations, .FilterUnloadCallback = Unload, .InstanceSetupCallback = Setup, .InstanceQueryTeardownCallback = QueryTeardown, .InstanceTeardownStartCallback = TeardownStart};
    NTSTATUS status;

    UNREFERENCED_PARAMETER(RegistryPath);
    gCount = NULL;
    ExInitializeRundownProtection(&gRundown);
    status = FltRegisterFilter(DriverObject, &registration, &gFilter);
    return NT_SUCCESS(status) ? FltStartFiltering(gFilter) : status;
}
