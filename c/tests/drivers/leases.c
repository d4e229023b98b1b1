/* As a server of files does it: creates of a client that has several handles say one oplock key for all of them. Here a client is a process from 1000 on. */
#include <initguid.h>
#include <fltKernel.h>

DRIVER_INITIALIZE DriverEntry;
static PFLT_FILTER Filter;

static NTSTATUS AddKey(PFLT_CALLBACK_DATA Data, ULONG Process)
{
    PECP_LIST list;
    POPLOCK_KEY_ECP_CONTEXT key;
    NTSTATUS status = FltGetEcpListFromCallbackData(Filter, Data, &list);

    if (!NT_SUCCESS(status) || list) {
        return status;
    }
    status = FltAllocateExtraCreateParameterList(Filter, 0, &list);
    if (!NT_SUCCESS(status)) {
        return status;
    }
    status = FltAllocateExtraCreateParameter(Filter, &GUID_ECP_OPLOCK_KEY, sizeof *key, 0, NULL, 'sael', (PVOID *)&key);
    if (NT_SUCCESS(status)) {
        RtlZeroMemory(key, sizeof *key);
        key->OplockKey.Data1 = Process;
        status = FltInsertExtraCreateParameter(Filter, list, key);
        if (NT_SUCCESS(status)) {
            status = FltSetEcpListIntoCallbackData(Filter, Data, list);
        } else {
            FltFreeExtraCreateParameter(Filter, key);
        }
    }
    if (!NT_SUCCESS(status)) {
        FltFreeExtraCreateParameterList(Filter, list);
    }
    return status;
}

static FLT_PREOP_CALLBACK_STATUS PreCreate(PFLT_CALLBACK_DATA Data, PCFLT_RELATED_OBJECTS FltObjects, PVOID *CompletionContext)
{
    ULONG process = FltGetRequestorProcessId(Data);

    UNREFERENCED_PARAMETER(FltObjects);
    UNREFERENCED_PARAMETER(CompletionContext);
    if (process >= 1000) {
        AddKey(Data, process);
    }
    return FLT_PREOP_SUCCESS_NO_CALLBACK;
}

static NTSTATUS Unload(FLT_FILTER_UNLOAD_FLAGS Flags)
{
    UNREFERENCED_PARAMETER(Flags);
    FltUnregisterFilter(Filter);
    return STATUS_SUCCESS;
}

static CONST FLT_OPERATION_REGISTRATION Callbacks[] = {{IRP_MJ_CREATE, 0, PreCreate, NULL, NULL}, {IRP_MJ_OPERATION_END, 0, NULL, NULL, NULL}};

static CONST FLT_REGISTRATION Registration = {sizeof(FLT_REGISTRATION), FLT_REGISTRATION_VERSION, 0, NULL, Callbacks, Unload, NULL, NULL, NULL, NULL, NULL, NULL, NULL, NULL};

NTSTATUS DriverEntry(PDRIVER_OBJECT DriverObject, PUNICODE_STRING RegistryPath)
{
    NTSTATUS status = FltRegisterFilter(DriverObject, &Registration, &Filter);

    UNREFERENCED_PARAMETER(RegistryPath);
    if (NT_SUCCESS(status)) {
        status = FltStartFiltering(Filter);
        if (!NT_SUCCESS(status)) {
            FltUnregisterFilter(Filter);
        }
    }
    return status;
}
