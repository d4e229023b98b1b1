/* A read has the kit fill a block, by a read of the driver's own, and a flush looks at it: each holds the resource that the block is under, and which the kit may be asked to read below. */
#include <fltKernel.h>

static PFLT_FILTER gFilter;
static UCHAR gBlock[8];
static ULONG gFound;
static ERESOURCE gResource;

static FLT_PREOP_CALLBACK_STATUS PreRead(PFLT_CALLBACK_DATA Data, PCFLT_RELATED_OBJECTS FltObjects, PVOID *CompletionContext)
{
    LARGE_INTEGER begin = {.QuadPart = 0};

    UNREFERENCED_PARAMETER(Data);
    UNREFERENCED_PARAMETER(CompletionContext);
    FltAcquireResourceExclusive(&gResource);
    FltReadFile(FltObjects->Instance, FltObjects->FileObject, &begin, sizeof(gBlock), gBlock, FLTFL_IO_OPERATION_DO_NOT_UPDATE_BYTE_OFFSET, NULL, NULL, NULL);
    FltReleaseResource(&gResource);
    return FLT_PREOP_SUCCESS_NO_CALLBACK;
}

static FLT_PREOP_CALLBACK_STATUS PreFlush(PFLT_CALLBACK_DATA Data, PCFLT_RELATED_OBJECTS FltObjects, PVOID *CompletionContext)
{
    UNREFERENCED_PARAMETER(Data);
    UNREFERENCED_PARAMETER(FltObjects);
    UNREFERENCED_PARAMETER(CompletionContext);
    FltAcquireResourceExclusive(&gResource);
    if (gBlock[0] == 'a') {
        gFound++;
    }
    FltReleaseResource(&gResource);
    return FLT_PREOP_SUCCESS_NO_CALLBACK;
}

static NTSTATUS Unload(FLT_FILTER_UNLOAD_FLAGS Flags)
{
    UNREFERENCED_PARAMETER(Flags);
    FltUnregisterFilter(gFilter);
    ExDeleteResourceLite(&gResource);
    return STATUS_SUCCESS;
}

static const FLT_OPERATION_REGISTRATION operations[] = {{IRP_MJ_READ, 0, PreRead}, {IRP_MJ_FLUSH_BUFFERS, 0, PreFlush}, {IRP_MJ_OPERATION_END}};
static const FLT_REGISTRATION registration = {sizeof(registration), FLT_REGISTRATION_VERSION, 0, NULL, operations, Unload};

NTSTATUS DriverEntry(PDRIVER_OBJECT DriverObject, PUNICODE_STRING RegistryPath)
{
    NTSTATUS status = ExInitializeResourceLite(&gResource);

    UNREFERENCED_PARAMETER(RegistryPath);
    if (!NT_SUCCESS(status)) {
        return status;
    }
    status = FltRegisterFilter(DriverObject, &registration, &gFilter);
    if (!NT_SUCCESS(status)) {
        ExDeleteResourceLite(&gResource);
        return status;
    }
    return FltStartFiltering(gFilter);
}
