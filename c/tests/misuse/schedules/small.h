/* What the drivers of this folder have in common: each registers a few operations, and is unloaded when it is asked to be. */
#include <fltKernel.h>

static PFLT_FILTER gFilter;

static NTSTATUS Unload(FLT_FILTER_UNLOAD_FLAGS Flags)
{
    UNREFERENCED_PARAMETER(Flags);
    FltUnregisterFilter(gFilter);
    return STATUS_SUCCESS;
}

static NTSTATUS QueryTeardown(PCFLT_RELATED_OBJECTS FltObjects, FLT_INSTANCE_QUERY_TEARDOWN_FLAGS Flags)
{
    UNREFERENCED_PARAMETER(FltObjects);
    UNREFERENCED_PARAMETER(Flags);
    return STATUS_SUCCESS;
}

static NTSTATUS Register(PDRIVER_OBJECT DriverObject, const FLT_OPERATION_REGISTRATION *Operations, const FLT_CONTEXT_REGISTRATION *Contexts,
                         PFLT_INSTANCE_TEARDOWN_CALLBACK TeardownStart)
{
    FLT_REGISTRATION registration = {
        .Size = sizeof(FLT_REGISTRATION),
        .Version = FLT_REGISTRATION_VERSION,
        .ContextRegistration = Contexts,
        .OperationRegistration = Operations,
        .FilterUnloadCallback = Unload,
        .InstanceQueryTeardownCallback = QueryTeardown,
        .InstanceTeardownStartCallback = TeardownStart,
    };
    NTSTATUS status = FltRegisterFilter(DriverObject, &registration, &gFilter);

    if (NT_SUCCESS(status)) {
        status = FltStartFiltering(gFilter);
    }
    return status;
}
