/* What the manager leaves out by name: it is declared and answers STATUS_NOT_SUPPORTED, and each call is told once as a LIMIT. The driver loads and runs all the same. */
#include <fltKernel.h>

#define SHOW(e) DbgPrint("%s = 0x%08x\n", #e, (ULONG)(e))

PFLT_FILTER gFilterHandle;
static FLT_POSTOP_CALLBACK_STATUS PostCreate(PFLT_CALLBACK_DATA Data, PCFLT_RELATED_OBJECTS FltObjects, PVOID CompletionContext, FLT_POST_OPERATION_FLAGS Flags)
{
    UCHAR room[16];

    UNREFERENCED_PARAMETER(CompletionContext);
    UNREFERENCED_PARAMETER(Flags);
    SHOW(FltFastIoMdlReadComplete(FltObjects->Instance, FltObjects->FileObject, NULL));
    SHOW(FltSetQuotaInformationFile(FltObjects->Instance, FltObjects->FileObject, room, sizeof(room)));
    SHOW(FltPrefetchFile(FltObjects->Instance, FltObjects->FileObject, NULL));
    SHOW(FltTagFile(FltObjects->Instance, FltObjects->FileObject, IO_REPARSE_TAG_SYMLINK, NULL, NULL, 0));
    if (NT_SUCCESS(Data->IoStatus.Status)) {
        Data->IoStatus.Status = STATUS_REPARSE;
        Data->IoStatus.Information = IO_REPARSE;
    }
    return FLT_POSTOP_FINISHED_PROCESSING;
}

static NTSTATUS Unload(FLT_FILTER_UNLOAD_FLAGS Flags)
{
    UNREFERENCED_PARAMETER(Flags);
    FltUnregisterFilter(gFilterHandle);
    return STATUS_SUCCESS;
}

CONST FLT_OPERATION_REGISTRATION Callbacks[] = {{IRP_MJ_CREATE, 0, NULL, PostCreate}, {IRP_MJ_OPERATION_END}};
CONST FLT_REGISTRATION Registration = {sizeof(FLT_REGISTRATION), FLT_REGISTRATION_VERSION, 0, NULL, Callbacks, Unload};

NTSTATUS DriverEntry(PDRIVER_OBJECT DriverObject, PUNICODE_STRING RegistryPath)
{
    NTSTATUS status = FltRegisterFilter(DriverObject, &Registration, &gFilterHandle);

    UNREFERENCED_PARAMETER(RegistryPath);
    return NT_SUCCESS(status) ? FltStartFiltering(gFilterHandle) : status;
}

