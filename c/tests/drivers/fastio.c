/* A filter that says which reads and writes come without an IRP. Its lower instance lets none through for \slow; of \wrong it says so of an IRP too, and \pend it would hold: mistakes. */
#include <fltKernel.h>

static PFLT_FILTER gFilter;
static PFLT_INSTANCE gLower;

static BOOLEAN Is(_In_ PCFLT_RELATED_OBJECTS FltObjects, _In_ PCWSTR Name)
{
    UNICODE_STRING name;

    RtlInitUnicodeString(&name, Name);
    return RtlEqualUnicodeString(&FltObjects->FileObject->FileName, &name, TRUE);
}

static FLT_PREOP_CALLBACK_STATUS PreData(_Inout_ PFLT_CALLBACK_DATA Data, _In_ PCFLT_RELATED_OBJECTS FltObjects, _Flt_CompletionContext_Outptr_ PVOID *CompletionContext)
{
    UNREFERENCED_PARAMETER(CompletionContext);
    DbgPrint("%s: %s, %s, flags %x\n", FltObjects->Instance == gLower ? "lower" : "upper", Data->Iopb->MajorFunction == IRP_MJ_READ ? "read" : "write",
             FLT_IS_FASTIO_OPERATION(Data) ? "fast" : FLT_IS_IRP_OPERATION(Data) ? "IRP" : "other", Data->Iopb->IrpFlags);
    if (FltObjects->Instance != gLower) {
        return FLT_PREOP_SUCCESS_WITH_CALLBACK;
    }
    if (Is(FltObjects, L"\\pend")) {
        return FLT_PREOP_PENDING;
    }
    if (Is(FltObjects, L"\\wrong") || (Is(FltObjects, L"\\slow") && FLT_IS_FASTIO_OPERATION(Data))) {
        return FLT_PREOP_DISALLOW_FASTIO;
    }
    return FLT_PREOP_SUCCESS_WITH_CALLBACK;
}

static FLT_POSTOP_CALLBACK_STATUS PostData(_Inout_ PFLT_CALLBACK_DATA Data, _In_ PCFLT_RELATED_OBJECTS FltObjects, _In_opt_ PVOID CompletionContext, _In_ FLT_POST_OPERATION_FLAGS Flags)
{
    UNREFERENCED_PARAMETER(CompletionContext);
    UNREFERENCED_PARAMETER(Flags);
    DbgPrint("%s: %08x, %u bytes\n", FltObjects->Instance == gLower ? "lower" : "upper", Data->IoStatus.Status, (ULONG)Data->IoStatus.Information);
    return FLT_POSTOP_FINISHED_PROCESSING;
}

static NTSTATUS Setup(_In_ PCFLT_RELATED_OBJECTS FltObjects, _In_ FLT_INSTANCE_SETUP_FLAGS Flags, _In_ DEVICE_TYPE VolumeDeviceType, _In_ FLT_FILESYSTEM_TYPE VolumeFilesystemType)
{
    UNREFERENCED_PARAMETER(Flags);
    UNREFERENCED_PARAMETER(VolumeDeviceType);
    UNREFERENCED_PARAMETER(VolumeFilesystemType);
    gLower = FltObjects->Instance;
    return STATUS_SUCCESS;
}

static NTSTATUS Unload(_In_ FLT_FILTER_UNLOAD_FLAGS Flags)
{
    UNREFERENCED_PARAMETER(Flags);
    FltUnregisterFilter(gFilter);
    return STATUS_SUCCESS;
}

static const FLT_OPERATION_REGISTRATION Callbacks[] = {{IRP_MJ_READ, 0, PreData, PostData}, {IRP_MJ_WRITE, 0, PreData, PostData}, {IRP_MJ_OPERATION_END}};
static const FLT_REGISTRATION Registration = {sizeof(FLT_REGISTRATION), FLT_REGISTRATION_VERSION, 0, NULL, Callbacks, Unload, Setup};

NTSTATUS DriverEntry(_In_ PDRIVER_OBJECT DriverObject, _In_ PUNICODE_STRING RegistryPath)
{
    NTSTATUS status = FltRegisterFilter(DriverObject, &Registration, &gFilter);

    UNREFERENCED_PARAMETER(RegistryPath);
    return NT_SUCCESS(status) ? FltStartFiltering(gFilter) : status;
}
