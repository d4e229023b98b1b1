/* Passes every operation through: it asks for each postoperation and changes nothing. It counts what passes. */
#include <fltKernel.h>

PFLT_FILTER gFilterHandle;
LONG gDown;
LONG gUp;

static FLT_PREOP_CALLBACK_STATUS PtPreOperation(_Inout_ PFLT_CALLBACK_DATA Data, _In_ PCFLT_RELATED_OBJECTS FltObjects,
                                                _Flt_CompletionContext_Outptr_ PVOID *CompletionContext)
{
    UNREFERENCED_PARAMETER(FltObjects);
    UNREFERENCED_PARAMETER(CompletionContext);
    PAGED_CODE();

    InterlockedIncrement(&gDown);
    DbgPrint("PassThrough: down, major function %u\n", Data->Iopb->MajorFunction);
    return FLT_PREOP_SUCCESS_WITH_CALLBACK;
}

static FLT_POSTOP_CALLBACK_STATUS PtPostOperation(_Inout_ PFLT_CALLBACK_DATA Data, _In_ PCFLT_RELATED_OBJECTS FltObjects, _In_opt_ PVOID CompletionContext,
                                                  _In_ FLT_POST_OPERATION_FLAGS Flags)
{
    UNREFERENCED_PARAMETER(FltObjects);
    UNREFERENCED_PARAMETER(CompletionContext);
    UNREFERENCED_PARAMETER(Flags);

    InterlockedIncrement(&gUp);
    DbgPrint("PassThrough: up, status 0x%08x\n", Data->IoStatus.Status);
    return FLT_POSTOP_FINISHED_PROCESSING;
}

static NTSTATUS PtInstanceSetup(_In_ PCFLT_RELATED_OBJECTS FltObjects, _In_ FLT_INSTANCE_SETUP_FLAGS Flags, _In_ DEVICE_TYPE VolumeDeviceType,
                                _In_ FLT_FILESYSTEM_TYPE VolumeFilesystemType)
{
    UNREFERENCED_PARAMETER(FltObjects);
    UNREFERENCED_PARAMETER(Flags);
    UNREFERENCED_PARAMETER(VolumeDeviceType);
    UNREFERENCED_PARAMETER(VolumeFilesystemType);
    PAGED_CODE();

    DbgPrint("PassThrough: instance set up\n");
    return STATUS_SUCCESS;
}

static NTSTATUS PtInstanceQueryTeardown(_In_ PCFLT_RELATED_OBJECTS FltObjects, _In_ FLT_INSTANCE_QUERY_TEARDOWN_FLAGS Flags)
{
    UNREFERENCED_PARAMETER(FltObjects);
    UNREFERENCED_PARAMETER(Flags);
    PAGED_CODE();

    return STATUS_SUCCESS;
}

static VOID PtInstanceTeardownStart(_In_ PCFLT_RELATED_OBJECTS FltObjects, _In_ FLT_INSTANCE_TEARDOWN_FLAGS Flags)
{
    UNREFERENCED_PARAMETER(FltObjects);
    DbgPrint("PassThrough: teardown starts, reason %u\n", Flags);
}

static VOID PtInstanceTeardownComplete(_In_ PCFLT_RELATED_OBJECTS FltObjects, _In_ FLT_INSTANCE_TEARDOWN_FLAGS Flags)
{
    UNREFERENCED_PARAMETER(FltObjects);
    UNREFERENCED_PARAMETER(Flags);
    DbgPrint("PassThrough: teardown complete\n");
}

static NTSTATUS PtUnload(_In_ FLT_FILTER_UNLOAD_FLAGS Flags)
{
    UNREFERENCED_PARAMETER(Flags);
    PAGED_CODE();

    FltUnregisterFilter(gFilterHandle);
    DbgPrint("PassThrough: unloaded, %d down, %d up\n", gDown, gUp);
    return STATUS_SUCCESS;
}

CONST FLT_OPERATION_REGISTRATION Callbacks[] = {
    {IRP_MJ_CREATE, 0, PtPreOperation, PtPostOperation},
    {IRP_MJ_CREATE_NAMED_PIPE, 0, PtPreOperation, PtPostOperation},
    {IRP_MJ_CLOSE, 0, PtPreOperation, PtPostOperation},
    {IRP_MJ_READ, 0, PtPreOperation, PtPostOperation},
    {IRP_MJ_WRITE, 0, PtPreOperation, PtPostOperation},
    {IRP_MJ_QUERY_INFORMATION, 0, PtPreOperation, PtPostOperation},
    {IRP_MJ_SET_INFORMATION, 0, PtPreOperation, PtPostOperation},
    {IRP_MJ_QUERY_EA, 0, PtPreOperation, PtPostOperation},
    {IRP_MJ_SET_EA, 0, PtPreOperation, PtPostOperation},
    {IRP_MJ_FLUSH_BUFFERS, 0, PtPreOperation, PtPostOperation},
    {IRP_MJ_QUERY_VOLUME_INFORMATION, 0, PtPreOperation, PtPostOperation},
    {IRP_MJ_SET_VOLUME_INFORMATION, 0, PtPreOperation, PtPostOperation},
    {IRP_MJ_DIRECTORY_CONTROL, 0, PtPreOperation, PtPostOperation},
    {IRP_MJ_FILE_SYSTEM_CONTROL, 0, PtPreOperation, PtPostOperation},
    {IRP_MJ_DEVICE_CONTROL, 0, PtPreOperation, PtPostOperation},
    {IRP_MJ_INTERNAL_DEVICE_CONTROL, 0, PtPreOperation, PtPostOperation},
    {IRP_MJ_SHUTDOWN, 0, PtPreOperation, PtPostOperation},
    {IRP_MJ_LOCK_CONTROL, 0, PtPreOperation, PtPostOperation},
    {IRP_MJ_CLEANUP, 0, PtPreOperation, PtPostOperation},
    {IRP_MJ_CREATE_MAILSLOT, 0, PtPreOperation, PtPostOperation},
    {IRP_MJ_QUERY_SECURITY, 0, PtPreOperation, PtPostOperation},
    {IRP_MJ_SET_SECURITY, 0, PtPreOperation, PtPostOperation},
    {IRP_MJ_QUERY_QUOTA, 0, PtPreOperation, PtPostOperation},
    {IRP_MJ_SET_QUOTA, 0, PtPreOperation, PtPostOperation},
    {IRP_MJ_PNP, 0, PtPreOperation, PtPostOperation},
    {IRP_MJ_ACQUIRE_FOR_SECTION_SYNCHRONIZATION, 0, PtPreOperation, PtPostOperation},
    {IRP_MJ_RELEASE_FOR_SECTION_SYNCHRONIZATION, 0, PtPreOperation, PtPostOperation},
    {IRP_MJ_ACQUIRE_FOR_MOD_WRITE, 0, PtPreOperation, PtPostOperation},
    {IRP_MJ_RELEASE_FOR_MOD_WRITE, 0, PtPreOperation, PtPostOperation},
    {IRP_MJ_ACQUIRE_FOR_CC_FLUSH, 0, PtPreOperation, PtPostOperation},
    {IRP_MJ_RELEASE_FOR_CC_FLUSH, 0, PtPreOperation, PtPostOperation},
    {IRP_MJ_FAST_IO_CHECK_IF_POSSIBLE, 0, PtPreOperation, PtPostOperation},
    {IRP_MJ_NETWORK_QUERY_OPEN, 0, PtPreOperation, PtPostOperation},
    {IRP_MJ_MDL_READ, 0, PtPreOperation, PtPostOperation},
    {IRP_MJ_MDL_READ_COMPLETE, 0, PtPreOperation, PtPostOperation},
    {IRP_MJ_PREPARE_MDL_WRITE, 0, PtPreOperation, PtPostOperation},
    {IRP_MJ_MDL_WRITE_COMPLETE, 0, PtPreOperation, PtPostOperation},
    {IRP_MJ_VOLUME_MOUNT, 0, PtPreOperation, PtPostOperation},
    {IRP_MJ_VOLUME_DISMOUNT, 0, PtPreOperation, PtPostOperation},
    {IRP_MJ_OPERATION_END}};

CONST FLT_REGISTRATION FilterRegistration = {
    sizeof(FLT_REGISTRATION),    /* Size */
    FLT_REGISTRATION_VERSION,    /* Version */
    0,                           /* Flags */
    NULL,                        /* Context */
    Callbacks,                   /* Operation callbacks */
    PtUnload,                    /* FilterUnload */
    PtInstanceSetup,             /* InstanceSetup */
    PtInstanceQueryTeardown,     /* InstanceQueryTeardown */
    PtInstanceTeardownStart,     /* InstanceTeardownStart */
    PtInstanceTeardownComplete,  /* InstanceTeardownComplete */
    NULL,                        /* GenerateFileName */
    NULL,                        /* GenerateDestinationFileName */
    NULL                         /* NormalizeNameComponent */
};

NTSTATUS DriverEntry(_In_ PDRIVER_OBJECT DriverObject, _In_ PUNICODE_STRING RegistryPath)
{
    NTSTATUS status;

    UNREFERENCED_PARAMETER(RegistryPath);

    status = FltRegisterFilter(DriverObject, &FilterRegistration, &gFilterHandle);
    FLT_ASSERT(NT_SUCCESS(status));
    if (NT_SUCCESS(status)) {
        status = FltStartFiltering(gFilterHandle);
        if (!NT_SUCCESS(status)) {
            FltUnregisterFilter(gFilterHandle);
        }
    }
    return status;
}
