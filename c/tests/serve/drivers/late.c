/* Creates and cleanups of files whose names begin with `late` are held until a flush comes, or the teardown starts. */
#include <fltKernel.h>

PFLT_FILTER gFilterHandle;
static LIST_ENTRY gHeld;

static VOID LetAllGo(VOID)
{
    while (!IsListEmpty(&gHeld)) {
        PLIST_ENTRY first = RemoveHeadList(&gHeld);
        FltCompletePendedPreOperation(CONTAINING_RECORD(first, FLT_CALLBACK_DATA, QueueLinks), FLT_PREOP_SUCCESS_NO_CALLBACK, NULL);
    }
}

static BOOLEAN IsLate(_In_ PCUNICODE_STRING Name)
{
    PCWSTR at = Name->Buffer + 1;

    return Name->Length >= 5 * sizeof(WCHAR) && at[0] == L'l' && at[1] == L'a' && at[2] == L't' && at[3] == L'e';
}

static FLT_PREOP_CALLBACK_STATUS PreHeld(_Inout_ PFLT_CALLBACK_DATA Data, _In_ PCFLT_RELATED_OBJECTS FltObjects, _Flt_CompletionContext_Outptr_ PVOID *CompletionContext)
{
    UNREFERENCED_PARAMETER(CompletionContext);
    if (!IsLate(&FltObjects->FileObject->FileName)) {
        return FLT_PREOP_SUCCESS_NO_CALLBACK;
    }
    InsertTailList(&gHeld, &Data->QueueLinks);
    return FLT_PREOP_PENDING;
}

static FLT_PREOP_CALLBACK_STATUS PreFlush(_Inout_ PFLT_CALLBACK_DATA Data, _In_ PCFLT_RELATED_OBJECTS FltObjects, _Flt_CompletionContext_Outptr_ PVOID *CompletionContext)
{
    UNREFERENCED_PARAMETER(Data);
    UNREFERENCED_PARAMETER(FltObjects);
    UNREFERENCED_PARAMETER(CompletionContext);
    LetAllGo();
    return FLT_PREOP_SUCCESS_NO_CALLBACK;
}

static NTSTATUS InstanceQueryTeardown(_In_ PCFLT_RELATED_OBJECTS FltObjects, _In_ FLT_INSTANCE_QUERY_TEARDOWN_FLAGS Flags)
{
    UNREFERENCED_PARAMETER(FltObjects);
    UNREFERENCED_PARAMETER(Flags);
    return STATUS_SUCCESS;
}

static VOID InstanceTeardownStart(_In_ PCFLT_RELATED_OBJECTS FltObjects, _In_ FLT_INSTANCE_TEARDOWN_FLAGS Reason)
{
    UNREFERENCED_PARAMETER(FltObjects);
    UNREFERENCED_PARAMETER(Reason);
    LetAllGo();
}

static NTSTATUS Unload(_In_ FLT_FILTER_UNLOAD_FLAGS Flags)
{
    UNREFERENCED_PARAMETER(Flags);
    FltUnregisterFilter(gFilterHandle);
    return STATUS_SUCCESS;
}

CONST FLT_OPERATION_REGISTRATION Callbacks[] = {
    {IRP_MJ_CREATE, 0, PreHeld, NULL}, {IRP_MJ_CLEANUP, 0, PreHeld, NULL}, {IRP_MJ_FLUSH_BUFFERS, 0, PreFlush, NULL}, {IRP_MJ_OPERATION_END}};

CONST FLT_REGISTRATION FilterRegistration = {
    sizeof(FLT_REGISTRATION), FLT_REGISTRATION_VERSION, 0, NULL, Callbacks, Unload, NULL, InstanceQueryTeardown, InstanceTeardownStart, NULL};

NTSTATUS DriverEntry(_In_ PDRIVER_OBJECT DriverObject, _In_ PUNICODE_STRING RegistryPath)
{
    NTSTATUS status = FltRegisterFilter(DriverObject, &FilterRegistration, &gFilterHandle);

    UNREFERENCED_PARAMETER(RegistryPath);
    InitializeListHead(&gHeld);
    return NT_SUCCESS(status) ? FltStartFiltering(gFilterHandle) : status;
}
