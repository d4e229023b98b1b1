/* A filter that pends reads with a cancel routine, and lets one go on by a flush; at a size's query it says whether a held one is cancelled. */
#include <fltKernel.h>

PFLT_FILTER gFilter;
static PFLT_CALLBACK_DATA volatile gHeld;

static PFLT_CALLBACK_DATA Take(VOID)
{
    return InterlockedExchangePointer((PVOID volatile *)&gHeld, NULL);
}

static VOID Cancelled(PFLT_CALLBACK_DATA Data)
{
    DbgPrint("Cancels: the routine is called, cancelled %u\n", FltIsIoCanceled(Data));
    if (Take() == Data) {
        Data->IoStatus.Status = STATUS_CANCELLED;
        Data->IoStatus.Information = 0;
        FltCompletePendedPreOperation(Data, FLT_PREOP_COMPLETE, NULL);
    }
}

static FLT_PREOP_CALLBACK_STATUS PreRead(PFLT_CALLBACK_DATA Data, PCFLT_RELATED_OBJECTS FltObjects, PVOID *Context)
{
    UNREFERENCED_PARAMETER(FltObjects);
    UNREFERENCED_PARAMETER(Context);
    if (Data->Iopb->Parameters.Read.ByteOffset.QuadPart >= 100 || gHeld != NULL || !NT_SUCCESS(FltSetCancelCompletion(Data, Cancelled)))
        return FLT_PREOP_SUCCESS_NO_CALLBACK;
    gHeld = Data;
    return FLT_PREOP_PENDING;
}

static FLT_PREOP_CALLBACK_STATUS PreFlush(PFLT_CALLBACK_DATA Data, PCFLT_RELATED_OBJECTS FltObjects, PVOID *Context)
{
    PFLT_CALLBACK_DATA held = Take();
    UNREFERENCED_PARAMETER(Data);
    UNREFERENCED_PARAMETER(FltObjects);
    UNREFERENCED_PARAMETER(Context);
    if (held != NULL) {
        DbgPrint("Cancels: clearing answers 0x%08x\n", FltClearCancelCompletion(held));
        FltCompletePendedPreOperation(held, FLT_PREOP_SUCCESS_NO_CALLBACK, NULL);
    }
    return FLT_PREOP_SUCCESS_NO_CALLBACK;
}

/* The routine is left where it is: that is a mistake. */
static FLT_PREOP_CALLBACK_STATUS PreSetInformation(PFLT_CALLBACK_DATA Data, PCFLT_RELATED_OBJECTS FltObjects, PVOID *Context)
{
    PFLT_CALLBACK_DATA held = Take();
    UNREFERENCED_PARAMETER(Data);
    UNREFERENCED_PARAMETER(FltObjects);
    UNREFERENCED_PARAMETER(Context);
    if (held != NULL)
        FltCompletePendedPreOperation(held, FLT_PREOP_SUCCESS_NO_CALLBACK, NULL);
    return FLT_PREOP_SUCCESS_NO_CALLBACK;
}

static NTSTATUS Unload(FLT_FILTER_UNLOAD_FLAGS Flags)
{
    UNREFERENCED_PARAMETER(Flags);
    FltUnregisterFilter(gFilter);
    return STATUS_SUCCESS;
}

static CONST FLT_OPERATION_REGISTRATION Operations[] = {
    {IRP_MJ_READ, 0, PreRead, NULL},
    {IRP_MJ_FLUSH_BUFFERS, 0, PreFlush, NULL},
    {IRP_MJ_SET_INFORMATION, 0, PreSetInformation, NULL},
    {IRP_MJ_OPERATION_END},
};

static CONST FLT_REGISTRATION Registration = {
    .Size = sizeof(FLT_REGISTRATION), .Version = FLT_REGISTRATION_VERSION, .OperationRegistration = Operations, .FilterUnloadCallback = Unload};

NTSTATUS DriverEntry(PDRIVER_OBJECT DriverObject, PUNICODE_STRING RegistryPath)
{
    UNREFERENCED_PARAMETER(RegistryPath);
    gHeld = NULL;
    NTSTATUS status = FltRegisterFilter(DriverObject, &Registration, &gFilter);
    return NT_SUCCESS(status) ? FltStartFiltering(gFilter) : status;
}
