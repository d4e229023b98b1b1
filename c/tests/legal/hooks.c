/* A guard that counts processes, handles and keys under a lock, denies one key, and takes its callbacks off before it goes. */
#include <fltKernel.h>

static PFLT_FILTER gFilter;
static LARGE_INTEGER gCookie;
static PVOID gHandles;
static FAST_MUTEX gLock;
static ULONG gProcesses, gOpened, gKeys;

static VOID Count(_Inout_ PULONG Which)
{
    ExAcquireFastMutex(&gLock);
    *Which += 1;
    ExReleaseFastMutex(&gLock);
}

static VOID OnProcess(_Inout_ PEPROCESS Process, _In_ HANDLE ProcessId, _Inout_opt_ PPS_CREATE_NOTIFY_INFO CreateInfo)
{
    UNREFERENCED_PARAMETER(Process);
    UNREFERENCED_PARAMETER(ProcessId);
    UNREFERENCED_PARAMETER(CreateInfo);
    Count(&gProcesses);
}

static OB_PREOP_CALLBACK_STATUS BeforeHandle(_In_ PVOID RegistrationContext, _Inout_ POB_PRE_OPERATION_INFORMATION OperationInformation)
{
    UNREFERENCED_PARAMETER(RegistrationContext);
    OperationInformation->Parameters->CreateHandleInformation.DesiredAccess &= ~1UL;
    Count(&gOpened);
    return OB_PREOP_SUCCESS;
}

static NTSTATUS OnKey(_In_ PVOID CallbackContext, _In_opt_ PVOID Argument1, _In_opt_ PVOID Argument2)
{
    UNICODE_STRING denied = RTL_CONSTANT_STRING(L"Denied");
    PCUNICODE_STRING name;
    BOOLEAN is;

    UNREFERENCED_PARAMETER(CallbackContext);
    if ((REG_NOTIFY_CLASS)(ULONG_PTR)Argument1 != RegNtPreSetValueKey) {
        return STATUS_SUCCESS;
    }
    Count(&gKeys);
    if (!NT_SUCCESS(CmCallbackGetKeyObjectIDEx(&gCookie, ((PREG_SET_VALUE_KEY_INFORMATION)Argument2)->Object, NULL, &name, 0))) {
        return STATUS_SUCCESS;
    }
    is = RtlEqualUnicodeString(((PREG_SET_VALUE_KEY_INFORMATION)Argument2)->ValueName, &denied, TRUE);
    CmCallbackReleaseKeyObjectIDEx(name);
    return is ? STATUS_ACCESS_DENIED : STATUS_SUCCESS;
}

static NTSTATUS QueryTeardown(_In_ PCFLT_RELATED_OBJECTS FltObjects, _In_ FLT_INSTANCE_QUERY_TEARDOWN_FLAGS Flags)
{
    UNREFERENCED_PARAMETER(FltObjects);
    UNREFERENCED_PARAMETER(Flags);
    return STATUS_SUCCESS;
}

static NTSTATUS Unload(_In_ FLT_FILTER_UNLOAD_FLAGS Flags)
{
    UNREFERENCED_PARAMETER(Flags);
    if (gHandles != NULL) {
        ObUnRegisterCallbacks(gHandles);
    }
    if (gCookie.QuadPart != 0) {
        CmUnRegisterCallback(gCookie);
    }
    PsSetCreateProcessNotifyRoutineEx(OnProcess, TRUE);
    FltUnregisterFilter(gFilter);
    return STATUS_SUCCESS;
}

static const FLT_OPERATION_REGISTRATION Callbacks[] = {{IRP_MJ_OPERATION_END}};
static const FLT_REGISTRATION Registration = {.Size = sizeof(FLT_REGISTRATION), .Version = FLT_REGISTRATION_VERSION, .OperationRegistration = Callbacks, .FilterUnloadCallback = Unload,
                                              .InstanceQueryTeardownCallback = QueryTeardown};

NTSTATUS DriverEntry(_In_ PDRIVER_OBJECT DriverObject, _In_ PUNICODE_STRING RegistryPath)
{
    UNICODE_STRING altitude = RTL_CONSTANT_STRING(L"385000");
    OB_OPERATION_REGISTRATION operation = {PsProcessType, OB_OPERATION_HANDLE_CREATE, BeforeHandle, NULL};
    OB_CALLBACK_REGISTRATION registration = {OB_FLT_REGISTRATION_VERSION, 1, altitude, NULL, &operation};
    NTSTATUS status;

    UNREFERENCED_PARAMETER(RegistryPath);
    ExInitializeFastMutex(&gLock);
    status = FltRegisterFilter(DriverObject, &Registration, &gFilter);
    if (!NT_SUCCESS(status)) {
        return status;
    }
    PsSetCreateProcessNotifyRoutineEx(OnProcess, FALSE);
    CmRegisterCallbackEx(OnKey, &altitude, DriverObject, NULL, &gCookie, NULL);
    ObRegisterCallbacks(&registration, &gHandles);
    return FltStartFiltering(gFilter);
}
