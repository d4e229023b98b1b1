/* A filter that finds routines of the filter manager by their names, as those do that run above an older one too; and that loads another filter, and unloads it, by names of creates. */
#include <fltKernel.h>

typedef NTSTATUS (*PGET_NAME)(PFLT_VOLUME Volume, PUNICODE_STRING VolumeName, PULONG BufferSizeNeeded);

static PFLT_FILTER gFilter;
static PGET_NAME gGetVolumeName;

static BOOLEAN IsNamed(_In_ PCFLT_RELATED_OBJECTS FltObjects, _In_ PCWSTR Name)
{
    UNICODE_STRING name;

    RtlInitUnicodeString(&name, Name);
    return RtlEqualUnicodeString(&name, &FltObjects->FileObject->FileName, TRUE);
}

static FLT_PREOP_CALLBACK_STATUS PreCreate(_Inout_ PFLT_CALLBACK_DATA Data, _In_ PCFLT_RELATED_OBJECTS FltObjects, _Flt_CompletionContext_Outptr_ PVOID *CompletionContext)
{
    UNICODE_STRING other = RTL_CONSTANT_STRING(L"nullfilter"), none = RTL_CONSTANT_STRING(L"nosuch"), own = RTL_CONSTANT_STRING(L"loads");
    WCHAR room[64];
    UNICODE_STRING name = {0, sizeof(room), room};

    UNREFERENCED_PARAMETER(Data);
    UNREFERENCED_PARAMETER(CompletionContext);
    if (IsNamed(FltObjects, L"\\load")) {
        DbgPrint("FltLoadFilter nullfilter: %08x\n", FltLoadFilter(&other));
        DbgPrint("FltLoadFilter nullfilter: %08x\n", FltLoadFilter(&other));
        DbgPrint("FltLoadFilter nosuch: %08x\n", FltLoadFilter(&none));
    } else if (IsNamed(FltObjects, L"\\unload")) {
        DbgPrint("FltUnloadFilter nullfilter: %08x\n", FltUnloadFilter(&other));
        DbgPrint("FltUnloadFilter nullfilter: %08x\n", FltUnloadFilter(&other));
    } else if (IsNamed(FltObjects, L"\\own")) {
        DbgPrint("FltUnloadFilter loads: %08x\n", FltUnloadFilter(&own));
    } else if (IsNamed(FltObjects, L"\\name") && gGetVolumeName != NULL) {
        DbgPrint("by its address: %08x %wZ\n", gGetVolumeName(FltObjects->Volume, &name, NULL), &name);
    }
    return FLT_PREOP_SUCCESS_NO_CALLBACK;
}

static NTSTATUS Unload(_In_ FLT_FILTER_UNLOAD_FLAGS Flags)
{
    UNREFERENCED_PARAMETER(Flags);
    FltUnregisterFilter(gFilter);
    return STATUS_SUCCESS;
}

static const FLT_OPERATION_REGISTRATION Callbacks[] = {{IRP_MJ_CREATE, 0, PreCreate, NULL}, {IRP_MJ_OPERATION_END}};
static const FLT_REGISTRATION Registration = {sizeof(FLT_REGISTRATION), FLT_REGISTRATION_VERSION, 0, NULL, Callbacks, Unload};

NTSTATUS DriverEntry(_In_ PDRIVER_OBJECT DriverObject, _In_ PUNICODE_STRING RegistryPath)
{
    NTSTATUS status;

    UNREFERENCED_PARAMETER(RegistryPath);
    gGetVolumeName = (PGET_NAME)FltGetRoutineAddress("FltGetVolumeName");
    DbgPrint("FltGetVolumeName is %s, FltSetTransactionContext is %s, FltNoSuchRoutine is %s\n", gGetVolumeName != NULL ? "there" : "NULL",
             FltGetRoutineAddress("FltSetTransactionContext") != NULL ? "there" : "NULL", FltGetRoutineAddress("FltNoSuchRoutine") != NULL ? "there" : "NULL");
    status = FltRegisterFilter(DriverObject, &Registration, &gFilter);
    if (NT_SUCCESS(status)) {
        status = FltStartFiltering(gFilter);
        if (!NT_SUCCESS(status)) {
            FltUnregisterFilter(gFilter);
        }
    }
    return status;
}
