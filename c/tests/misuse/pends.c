/* Mistakes with operations that are held: one is completed twice, one from a callback of another instance, one never. Locks that are held twice or never let go
 * stand here too. What the host has to tell of each stands in c/expected/pends.out. */
#include <fltKernel.h>

PFLT_FILTER gFilterHandle;
static PFLT_CALLBACK_DATA gPended;
static EX_PUSH_LOCK gLock;

static FLT_PREOP_CALLBACK_STATUS PreRead(PFLT_CALLBACK_DATA Data, PCFLT_RELATED_OBJECTS FltObjects, PVOID *CompletionContext)
{
    UNREFERENCED_PARAMETER(FltObjects);
    UNREFERENCED_PARAMETER(CompletionContext);
    gPended = Data;
    return FLT_PREOP_PENDING;
}

static FLT_PREOP_CALLBACK_STATUS PreFlush(PFLT_CALLBACK_DATA Data, PCFLT_RELATED_OBJECTS FltObjects, PVOID *CompletionContext)
{
    UNREFERENCED_PARAMETER(Data);
    UNREFERENCED_PARAMETER(FltObjects);
    UNREFERENCED_PARAMETER(CompletionContext);
    FltCompletePendedPreOperation(gPended, FLT_PREOP_SUCCESS_NO_CALLBACK, NULL);
    return FLT_PREOP_SUCCESS_NO_CALLBACK;
}

static FLT_PREOP_CALLBACK_STATUS PreWrite(PFLT_CALLBACK_DATA Data, PCFLT_RELATED_OBJECTS FltObjects, PVOID *CompletionContext)
{
    UNREFERENCED_PARAMETER(FltObjects);
    UNREFERENCED_PARAMETER(CompletionContext);
    /* Its own operation, which isn't held. */
    FltCompletePendedPreOperation(Data, FLT_PREOP_SUCCESS_NO_CALLBACK, NULL);
    FltAcquirePushLockExclusive(&gLock);
    FltAcquirePushLockExclusive(&gLock);
    FltReleasePushLock(&gLock);
    return FLT_PREOP_SUCCESS_NO_CALLBACK;
}

static NTSTATUS Unload(FLT_FILTER_UNLOAD_FLAGS Flags)
{
    UNREFERENCED_PARAMETER(Flags);
    FltUnregisterFilter(gFilterHandle);
    return STATUS_SUCCESS;
}

CONST FLT_OPERATION_REGISTRATION Callbacks[] = {
    {IRP_MJ_READ, 0, PreRead, NULL}, {IRP_MJ_FLUSH_BUFFERS, 0, PreFlush, NULL}, {IRP_MJ_WRITE, 0, PreWrite, NULL}, {IRP_MJ_OPERATION_END}};
CONST FLT_REGISTRATION Registration = {sizeof(FLT_REGISTRATION), FLT_REGISTRATION_VERSION, 0, NULL, Callbacks, Unload, NULL, NULL, NULL, NULL};

NTSTATUS DriverEntry(PDRIVER_OBJECT DriverObject, PUNICODE_STRING RegistryPath)
{
    NTSTATUS status = FltRegisterFilter(DriverObject, &Registration, &gFilterHandle);

    UNREFERENCED_PARAMETER(RegistryPath);
    FltInitializePushLock(&gLock);
    return NT_SUCCESS(status) ? FltStartFiltering(gFilterHandle) : status;
}
