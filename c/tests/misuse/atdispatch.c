/* Routines that the kit has for PASSIVE_LEVEL, or up to APC_LEVEL: each flush calls the next one under a spin lock. */
#include <fltKernel.h>

static PFLT_FILTER gFilter;
static KSPIN_LOCK gLock;
static ULONG gStep;
static HANDLE gKey;
static UCHAR gRoom[1024];

static NTSTATUS OnKey(PVOID Context, PVOID Class, PVOID Argument)
{
    UNREFERENCED_PARAMETER(Context);
    UNREFERENCED_PARAMETER(Class);
    UNREFERENCED_PARAMETER(Argument);
    return STATUS_SUCCESS;
}

static VOID Volumes(PCFLT_RELATED_OBJECTS FltObjects, ULONG Step)
{
    PDEVICE_OBJECT device;
    PFLT_VOLUME volume;
    IO_STATUS_BLOCK io;
    ULONG length;

    switch (Step) {
    case 0:
        FltQueryVolumeInformation(FltObjects->Instance, &io, gRoom, sizeof gRoom, FileFsSizeInformation);
        break;
    case 1:
        FltQuerySecurityObject(FltObjects->Instance, FltObjects->FileObject, OWNER_SECURITY_INFORMATION, gRoom, sizeof gRoom, &length);
        break;
    case 2:
        if (NT_SUCCESS(FltGetVolumeFromFileObject(gFilter, FltObjects->FileObject, &volume))) {
            FltObjectDereference(volume);
        }
        break;
    case 3:
        if (NT_SUCCESS(FltGetDiskDeviceObject(FltObjects->Volume, &device))) {
            ObDereferenceObject(device);
        }
        break;
    case 4:
        FltGetVolumeInformation(FltObjects->Volume, FilterVolumeBasicInformation, gRoom, sizeof gRoom, &length);
        break;
    }
}

static VOID Others(ULONG Step)
{
    UNICODE_STRING altitude = RTL_CONSTANT_STRING(L"320000.7");
    LARGE_INTEGER cookie;
    PECP_LIST list;
    ULONG length;

    switch (Step) {
    case 5:
        if (NT_SUCCESS(FltAllocateExtraCreateParameterList(gFilter, 0, &list))) {
            FltFreeExtraCreateParameterList(gFilter, list);
        }
        break;
    case 6:
        if (NT_SUCCESS(CmRegisterCallbackEx(OnKey, &altitude, gFilter, NULL, &cookie, NULL))) {
            CmUnRegisterCallback(cookie);
        }
        break;
    case 7:
        ZwQueryKey(gKey, KeyBasicInformation, gRoom, sizeof gRoom, &length);
        break;
    case 8:
        PsDereferencePrimaryToken(PsReferencePrimaryToken(PsGetCurrentProcess()));
        break;
    }
}

static FLT_PREOP_CALLBACK_STATUS PreFlush(_Inout_ PFLT_CALLBACK_DATA Data, _In_ PCFLT_RELATED_OBJECTS FltObjects, _Flt_CompletionContext_Outptr_ PVOID *CompletionContext)
{
    KIRQL irql;

    UNREFERENCED_PARAMETER(Data);
    UNREFERENCED_PARAMETER(CompletionContext);
    KeAcquireSpinLock(&gLock, &irql);
    Volumes(FltObjects, gStep);
    Others(gStep);
    gStep++;
    KeReleaseSpinLock(&gLock, irql);
    return FLT_PREOP_SUCCESS_NO_CALLBACK;
}

static NTSTATUS Unload(_In_ FLT_FILTER_UNLOAD_FLAGS Flags)
{
    UNREFERENCED_PARAMETER(Flags);
    FltUnregisterFilter(gFilter);
    ZwClose(gKey);
    return STATUS_SUCCESS;
}

static const FLT_OPERATION_REGISTRATION Operations[] = {{IRP_MJ_FLUSH_BUFFERS, 0, PreFlush}, {IRP_MJ_OPERATION_END}};

NTSTATUS DriverEntry(_In_ PDRIVER_OBJECT DriverObject, _In_ PUNICODE_STRING RegistryPath)
{
    FLT_REGISTRATION registration = {.Size = sizeof(FLT_REGISTRATION), .Version = FLT_REGISTRATION_VERSION, .OperationRegistration = Operations, .FilterUnloadCallback = Unload};
    OBJECT_ATTRIBUTES attributes;
    ULONG disposition;
    NTSTATUS status;

    KeInitializeSpinLock(&gLock);
    InitializeObjectAttributes(&attributes, RegistryPath, OBJ_KERNEL_HANDLE | OBJ_CASE_INSENSITIVE, NULL, NULL);
    status = ZwCreateKey(&gKey, KEY_READ, &attributes, 0, NULL, 0, &disposition);
    if (!NT_SUCCESS(status)) {
        return status;
    }
    status = FltRegisterFilter(DriverObject, &registration, &gFilter);
    if (NT_SUCCESS(status)) {
        status = FltStartFiltering(gFilter);
    } else {
        ZwClose(gKey);
    }
    return status;
}
