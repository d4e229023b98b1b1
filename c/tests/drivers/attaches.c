/* A filter that attaches and detaches a second instance of its own, and asks what filters, volumes and instances there are. */
#include <fltKernel.h>

static PFLT_FILTER gFilter;

static UNICODE_STRING Text(_In_ PVOID Base, _In_ USHORT Offset, _In_ USHORT Length)
{
    UNICODE_STRING text;

    text.Buffer = Add2Ptr(Base, Offset);
    text.Length = text.MaximumLength = Length;
    return text;
}

static VOID ShowInstance(_In_ NTSTATUS Status, _In_ PVOID Buffer)
{
    PINSTANCE_FULL_INFORMATION full = Buffer;
    UNICODE_STRING name, altitude, volume, filter;

    if (!NT_SUCCESS(Status)) {
        DbgPrint("instance: %08x\n", Status);
        return;
    }
    name = Text(full, full->InstanceNameBufferOffset, full->InstanceNameLength);
    altitude = Text(full, full->AltitudeBufferOffset, full->AltitudeLength);
    volume = Text(full, full->VolumeNameBufferOffset, full->VolumeNameLength);
    filter = Text(full, full->FilterNameBufferOffset, full->FilterNameLength);
    DbgPrint("instance: %wZ at %wZ on %wZ of %wZ\n", &name, &altitude, &volume, &filter);
}

static VOID ShowAll(_In_ PCFLT_RELATED_OBJECTS FltObjects)
{
    ULONG64 buffer[64];
    PFILTER_AGGREGATE_BASIC_INFORMATION filter = (PFILTER_AGGREGATE_BASIC_INFORMATION)buffer;
    PFILTER_VOLUME_BASIC_INFORMATION volume = (PFILTER_VOLUME_BASIC_INFORMATION)buffer;
    UNICODE_STRING name, device = RTL_CONSTANT_STRING(L"\\Device\\v0");
    ULONG index, size;
    NTSTATUS status;

    for (index = 0; (status = FltEnumerateInstanceInformationByVolume(FltObjects->Volume, index, InstanceFullInformation, buffer, sizeof(buffer), &size)) != STATUS_NO_MORE_ENTRIES; index++) {
        ShowInstance(status, buffer);
    }
    ShowInstance(FltEnumerateInstanceInformationByFilter(gFilter, 1, InstanceFullInformation, buffer, sizeof(buffer), &size), buffer);
    ShowInstance(FltEnumerateInstanceInformationByVolumeName(&device, 1, InstanceFullInformation, buffer, sizeof(buffer), &size), buffer);
    for (index = 0; (status = FltEnumerateFilterInformation(index, FilterAggregateBasicInformation, buffer, sizeof(buffer), &size)) != STATUS_NO_MORE_ENTRIES; index++) {
        name = Text(filter, filter->Type.MiniFilter.FilterNameBufferOffset, filter->Type.MiniFilter.FilterNameLength);
        DbgPrint("filter: %08x, %wZ with %u instances\n", status, &name, filter->Type.MiniFilter.NumberOfInstances);
    }
    for (index = 0; (status = FltEnumerateVolumeInformation(gFilter, index, FilterVolumeBasicInformation, buffer, sizeof(buffer), &size)) != STATUS_NO_MORE_ENTRIES; index++) {
        name = Text(volume->FilterVolumeName, 0, volume->FilterVolumeNameLength);
        DbgPrint("volume: %08x, %wZ\n", status, &name);
    }
}

static FLT_PREOP_CALLBACK_STATUS PreFlush(_Inout_ PFLT_CALLBACK_DATA Data, _In_ PCFLT_RELATED_OBJECTS FltObjects, _Flt_CompletionContext_Outptr_ PVOID *CompletionContext)
{
    UNICODE_STRING altitude = RTL_CONSTANT_STRING(L"50.5"), name = RTL_CONSTANT_STRING(L"second"), other = RTL_CONSTANT_STRING(L"third");
    PFLT_INSTANCE instance;
    ULONG64 buffer[64];
    ULONG size;
    NTSTATUS status;

    UNREFERENCED_PARAMETER(Data);
    UNREFERENCED_PARAMETER(CompletionContext);
    DbgPrint("no altitude of its own: %08x\n", FltAttachVolume(gFilter, FltObjects->Volume, &name, NULL));
    DbgPrint("attached: %08x\n", FltAttachVolumeAtAltitude(gFilter, FltObjects->Volume, &altitude, &name, &instance));
    DbgPrint("the same altitude: %08x\n", FltAttachVolumeAtAltitude(gFilter, FltObjects->Volume, &altitude, &other, NULL));
    ShowInstance(FltGetInstanceInformation(instance, InstanceFullInformation, buffer, sizeof(buffer), &size), buffer);
    status = FltGetInstanceInformation(instance, InstanceBasicInformation, buffer, sizeof(INSTANCE_BASIC_INFORMATION) + 11, &size);
    DbgPrint("too small: %08x, %u more bytes\n", status, size - (ULONG)sizeof(INSTANCE_BASIC_INFORMATION));
    FltObjectDereference(instance);
    ShowAll(FltObjects);
    DbgPrint("detached: %08x, and again %08x\n", FltDetachVolume(gFilter, FltObjects->Volume, &name), FltDetachVolume(gFilter, FltObjects->Volume, &other));
    return FLT_PREOP_SUCCESS_NO_CALLBACK;
}

static NTSTATUS Setup(_In_ PCFLT_RELATED_OBJECTS FltObjects, _In_ FLT_INSTANCE_SETUP_FLAGS Flags, _In_ DEVICE_TYPE VolumeDeviceType, _In_ FLT_FILESYSTEM_TYPE VolumeFilesystemType)
{
    UNREFERENCED_PARAMETER(FltObjects);
    UNREFERENCED_PARAMETER(VolumeDeviceType);
    UNREFERENCED_PARAMETER(VolumeFilesystemType);
    DbgPrint("set up, flags %x\n", Flags);
    return STATUS_SUCCESS;
}

static NTSTATUS Query(_In_ PCFLT_RELATED_OBJECTS FltObjects, _In_ FLT_INSTANCE_QUERY_TEARDOWN_FLAGS Flags)
{
    UNREFERENCED_PARAMETER(FltObjects);
    UNREFERENCED_PARAMETER(Flags);
    return STATUS_SUCCESS;
}

static NTSTATUS Unload(_In_ FLT_FILTER_UNLOAD_FLAGS Flags)
{
    UNREFERENCED_PARAMETER(Flags);
    FltUnregisterFilter(gFilter);
    return STATUS_SUCCESS;
}

static const FLT_OPERATION_REGISTRATION Callbacks[] = {{IRP_MJ_FLUSH_BUFFERS, 0, PreFlush, NULL}, {IRP_MJ_OPERATION_END}};
static const FLT_REGISTRATION Registration = {sizeof(FLT_REGISTRATION), FLT_REGISTRATION_VERSION, 0, NULL, Callbacks, Unload, Setup, Query};

NTSTATUS DriverEntry(_In_ PDRIVER_OBJECT DriverObject, _In_ PUNICODE_STRING RegistryPath)
{
    NTSTATUS status;

    UNREFERENCED_PARAMETER(RegistryPath);
    status = FltRegisterFilter(DriverObject, &Registration, &gFilter);
    if (NT_SUCCESS(status)) {
        status = FltStartFiltering(gFilter);
        if (!NT_SUCCESS(status)) {
            FltUnregisterFilter(gFilter);
        }
    }
    return status;
}
