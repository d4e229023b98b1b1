/* A filter that registers every operation, says what each one is, and can be told by names what to do with one: it disallows a fast query of `slow`, and holds nothing. */
#include <fltKernel.h>

PFLT_FILTER gFilter;

static BOOLEAN IsNamed(PFILE_OBJECT File, PCWSTR Name)
{
    UNICODE_STRING name;

    RtlInitUnicodeString(&name, Name);
    return File != NULL && RtlEqualUnicodeString(&File->FileName, &name, TRUE);
}

static PCSTR KindOf(PFLT_CALLBACK_DATA Data)
{
    if (FLT_IS_FASTIO_OPERATION(Data)) {
        return "fast ";
    }
    return FLT_IS_FS_FILTER_OPERATION(Data) ? "filter " : "";
}

static FLT_PREOP_CALLBACK_STATUS Pre(PFLT_CALLBACK_DATA Data, PCFLT_RELATED_OBJECTS FltObjects, PVOID *CompletionContext)
{
    PFLT_IO_PARAMETER_BLOCK iopb = Data->Iopb;

    UNREFERENCED_PARAMETER(CompletionContext);
    DbgPrint("Majors: %s%s, minor %u, flags 0x%x, %s%s\n", KindOf(Data), FltGetIrpName(iopb->MajorFunction), iopb->MinorFunction, iopb->OperationFlags,
             FltObjects->FileObject == NULL ? "no file" : "a file", iopb->IrpFlags & IRP_PAGING_IO ? ", paging" : "");
    if (iopb->MajorFunction == IRP_MJ_NETWORK_QUERY_OPEN && IsNamed(FltObjects->FileObject, L"\\slow")) {
        return FLT_PREOP_DISALLOW_FASTIO;
    }
    return FLT_PREOP_SUCCESS_WITH_CALLBACK;
}

static FLT_POSTOP_CALLBACK_STATUS Post(PFLT_CALLBACK_DATA Data, PCFLT_RELATED_OBJECTS FltObjects, PVOID CompletionContext, FLT_POST_OPERATION_FLAGS Flags)
{
    UNREFERENCED_PARAMETER(FltObjects);
    UNREFERENCED_PARAMETER(CompletionContext);
    if (!FlagOn(Flags, FLTFL_POST_OPERATION_DRAINING)) {
        DbgPrint("Majors: 0x%08x, %u bytes\n", Data->IoStatus.Status, (ULONG)Data->IoStatus.Information);
    } else {
        DbgPrint("Majors: %s is drained\n", FltGetIrpName(Data->Iopb->MajorFunction));
    }
    return FLT_POSTOP_FINISHED_PROCESSING;
}

static NTSTATUS QueryTeardown(PCFLT_RELATED_OBJECTS FltObjects, FLT_INSTANCE_QUERY_TEARDOWN_FLAGS Flags)
{
    UNREFERENCED_PARAMETER(FltObjects);
    UNREFERENCED_PARAMETER(Flags);
    return STATUS_SUCCESS;
}

static NTSTATUS Unload(FLT_FILTER_UNLOAD_FLAGS Flags)
{
    UNREFERENCED_PARAMETER(Flags);
    FltUnregisterFilter(gFilter);
    return STATUS_SUCCESS;
}

#define ALL(major) {(major), 0, Pre, Post}
CONST FLT_OPERATION_REGISTRATION Callbacks[] = {ALL(IRP_MJ_CREATE),
                                                ALL(IRP_MJ_CLOSE),
                                                ALL(IRP_MJ_READ),
                                                ALL(IRP_MJ_WRITE),
                                                ALL(IRP_MJ_QUERY_INFORMATION),
                                                ALL(IRP_MJ_SET_INFORMATION),
                                                ALL(IRP_MJ_QUERY_EA),
                                                ALL(IRP_MJ_SET_EA),
                                                ALL(IRP_MJ_FLUSH_BUFFERS),
                                                ALL(IRP_MJ_QUERY_VOLUME_INFORMATION),
                                                ALL(IRP_MJ_SET_VOLUME_INFORMATION),
                                                ALL(IRP_MJ_DIRECTORY_CONTROL),
                                                ALL(IRP_MJ_FILE_SYSTEM_CONTROL),
                                                ALL(IRP_MJ_DEVICE_CONTROL),
                                                ALL(IRP_MJ_INTERNAL_DEVICE_CONTROL),
                                                ALL(IRP_MJ_SHUTDOWN),
                                                ALL(IRP_MJ_LOCK_CONTROL),
                                                ALL(IRP_MJ_CLEANUP),
                                                ALL(IRP_MJ_QUERY_SECURITY),
                                                ALL(IRP_MJ_SET_SECURITY),
                                                ALL(IRP_MJ_QUERY_QUOTA),
                                                ALL(IRP_MJ_SET_QUOTA),
                                                ALL(IRP_MJ_PNP),
                                                ALL(IRP_MJ_ACQUIRE_FOR_SECTION_SYNCHRONIZATION),
                                                ALL(IRP_MJ_RELEASE_FOR_SECTION_SYNCHRONIZATION),
                                                ALL(IRP_MJ_NETWORK_QUERY_OPEN),
                                                {IRP_MJ_OPERATION_END}};
CONST FLT_REGISTRATION Registration = {sizeof(FLT_REGISTRATION), FLT_REGISTRATION_VERSION, 0, NULL, Callbacks, Unload, NULL, QueryTeardown};

NTSTATUS DriverEntry(PDRIVER_OBJECT DriverObject, PUNICODE_STRING RegistryPath)
{
    NTSTATUS status = FltRegisterFilter(DriverObject, &Registration, &gFilter);

    UNREFERENCED_PARAMETER(RegistryPath);
    return NT_SUCCESS(status) ? FltStartFiltering(gFilter) : status;
}
