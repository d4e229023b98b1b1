/* A driver with WPP: each trace call is compiled in. Nobody listens: it registers, and says nothing. One message is sent with a handle of no session. */
#include <fltKernel.h>
#include "traced.h"

static PFLT_FILTER gFilter;

static FLT_PREOP_CALLBACK_STATUS PreRead(PFLT_CALLBACK_DATA Data, PCFLT_RELATED_OBJECTS FltObjects, PVOID *CompletionContext)
{
    ULONG length = Data->Iopb->Parameters.Read.Length;

    UNREFERENCED_PARAMETER(FltObjects);
    UNREFERENCED_PARAMETER(CompletionContext);
    DoTraceMessage(1, "a read of %u bytes", length);
    if (length == 1) {
        DbgPrint("traced: a message of no session is answered by 0x%08x\n", WPP_SF_d(11, &WPP_traced_Traceguids, length));
    }
    return FLT_PREOP_SUCCESS_NO_CALLBACK;
}

static NTSTATUS Unload(FLT_FILTER_UNLOAD_FLAGS Flags)
{
    UNREFERENCED_PARAMETER(Flags);
    FltUnregisterFilter(gFilter);
    WPP_CLEANUP(NULL);
    return STATUS_SUCCESS;
}

static const FLT_OPERATION_REGISTRATION Callbacks[] = {{IRP_MJ_READ, 0, PreRead, NULL}, {IRP_MJ_OPERATION_END}};
static const FLT_REGISTRATION Registration = {sizeof(FLT_REGISTRATION), FLT_REGISTRATION_VERSION, 0, NULL, Callbacks, Unload};

NTSTATUS DriverEntry(PDRIVER_OBJECT DriverObject, PUNICODE_STRING RegistryPath)
{
    NTSTATUS status;

    UNREFERENCED_PARAMETER(RegistryPath);
    WPP_INIT_TRACING(DriverObject, RegistryPath);
    status = FltRegisterFilter(DriverObject, &Registration, &gFilter);
    if (NT_SUCCESS(status)) {
        status = FltStartFiltering(gFilter);
    }
    return status;
}
