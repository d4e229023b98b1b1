/* Says what comes to it: reads, writes, sizes, and what the cache manager and the memory manager ask for, with whose process it is and what the top-level IRP is. */
#include <fltKernel.h>

static PFLT_FILTER gFilter;

static const char *Kind(PFLT_CALLBACK_DATA Data)
{
    ULONG flags = Data->Iopb->IrpFlags;

    if (FLT_IS_FASTIO_OPERATION(Data)) {
        return "fast ";
    }
    if (FlagOn(flags, IRP_PAGING_IO)) {
        return FlagOn(flags, IRP_SYNCHRONOUS_PAGING_IO) ? (FlagOn(flags, IRP_NOCACHE) ? "synchronous paging " : "paging without NOCACHE ") : "paging ";
    }
    return FlagOn(flags, IRP_NOCACHE) ? "uncached " : "";
}

static const char *Top(VOID)
{
    switch ((ULONG_PTR)IoGetTopLevelIrp()) {
    case 0:
        return "none";
    case FSRTL_CACHE_TOP_LEVEL_IRP:
        return "the cache";
    case FSRTL_MOD_WRITE_TOP_LEVEL_IRP:
        return "the modified page writer";
    case FSRTL_FAST_IO_TOP_LEVEL_IRP:
        return "fast I/O";
    default:
        return "an IRP";
    }
}

static FLT_PREOP_CALLBACK_STATUS PreData(PFLT_CALLBACK_DATA Data, PCFLT_RELATED_OBJECTS FltObjects, PVOID *CompletionContext)
{
    PFLT_PARAMETERS asked = &Data->Iopb->Parameters; /* both begin alike */

    UNREFERENCED_PARAMETER(CompletionContext);
    DbgPrint("  %s%s of %u at %I64d, process %u, top-level %s%s\n", Kind(Data), Data->Iopb->MajorFunction == IRP_MJ_READ ? "read" : "write", asked->Read.Length, asked->Read.ByteOffset.QuadPart,
             (ULONG)(ULONG_PTR)PsGetCurrentProcessId(), Top(), FlagOn(FltObjects->FileObject->Flags, FO_CLEANUP_COMPLETE) ? ", after the cleanup" : "");
    return FLT_PREOP_SUCCESS_NO_CALLBACK;
}

static FLT_PREOP_CALLBACK_STATUS PreSet(PFLT_CALLBACK_DATA Data, PCFLT_RELATED_OBJECTS FltObjects, PVOID *CompletionContext)
{
    UNREFERENCED_PARAMETER(FltObjects);
    UNREFERENCED_PARAMETER(CompletionContext);
    if (Data->Iopb->Parameters.SetFileInformation.FileInformationClass == FileEndOfFileInformation) {
        DbgPrint("  %ssize %I64d%s, process %u, top-level %s\n", FlagOn(Data->Iopb->IrpFlags, IRP_PAGING_IO) ? "paging " : "",
                 ((PFILE_END_OF_FILE_INFORMATION)Data->Iopb->Parameters.SetFileInformation.InfoBuffer)->EndOfFile.QuadPart, Data->Iopb->Parameters.SetFileInformation.AdvanceOnly ? ", advance only" : "",
                 (ULONG)(ULONG_PTR)PsGetCurrentProcessId(), Top());
    }
    return FLT_PREOP_SUCCESS_NO_CALLBACK;
}

static FLT_PREOP_CALLBACK_STATUS PreOther(PFLT_CALLBACK_DATA Data, PCFLT_RELATED_OBJECTS FltObjects, PVOID *CompletionContext)
{
    UNREFERENCED_PARAMETER(FltObjects);
    UNREFERENCED_PARAMETER(CompletionContext);
    DbgPrint("  %s\n", FltGetIrpName(Data->Iopb->MajorFunction));
    return FLT_PREOP_SUCCESS_NO_CALLBACK;
}

static NTSTATUS QueryTeardown(PCFLT_RELATED_OBJECTS FltObjects, FLT_INSTANCE_QUERY_TEARDOWN_FLAGS Flags)
{
    UNREFERENCED_PARAMETER(FltObjects);
    UNREFERENCED_PARAMETER(Flags);
    return STATUS_SUCCESS;
}

static NTSTATUS Unload(FLT_FILTER_UNLOAD_FLAGS Flags)
{
    UNREFERENCED_PARAMETER(Flags);
    FltUnregisterFilter(gFilter);
    return STATUS_SUCCESS;
}

static const FLT_OPERATION_REGISTRATION gOperations[] = {{IRP_MJ_READ, 0, PreData, NULL},
                                                         {IRP_MJ_WRITE, 0, PreData, NULL},
                                                         {IRP_MJ_SET_INFORMATION, 0, PreSet, NULL},
                                                         {IRP_MJ_FLUSH_BUFFERS, 0, PreOther, NULL},
                                                         {IRP_MJ_CLEANUP, 0, PreOther, NULL},
                                                         {IRP_MJ_CLOSE, 0, PreOther, NULL},
                                                         {IRP_MJ_ACQUIRE_FOR_CC_FLUSH, 0, PreOther, NULL},
                                                         {IRP_MJ_RELEASE_FOR_CC_FLUSH, 0, PreOther, NULL},
                                                         {IRP_MJ_ACQUIRE_FOR_MOD_WRITE, 0, PreOther, NULL},
                                                         {IRP_MJ_RELEASE_FOR_MOD_WRITE, 0, PreOther, NULL},
                                                         {IRP_MJ_ACQUIRE_FOR_SECTION_SYNCHRONIZATION, 0, PreOther, NULL},
                                                         {IRP_MJ_RELEASE_FOR_SECTION_SYNCHRONIZATION, 0, PreOther, NULL},
                                                         {IRP_MJ_OPERATION_END}};
static const FLT_REGISTRATION gRegistration = {sizeof(FLT_REGISTRATION), FLT_REGISTRATION_VERSION, 0, NULL, gOperations, Unload, NULL, QueryTeardown};

NTSTATUS DriverEntry(PDRIVER_OBJECT DriverObject, PUNICODE_STRING RegistryPath)
{
    NTSTATUS status = FltRegisterFilter(DriverObject, &gRegistration, &gFilter);

    UNREFERENCED_PARAMETER(RegistryPath);
    if (NT_SUCCESS(status)) {
        status = FltStartFiltering(gFilter);
        if (!NT_SUCCESS(status)) {
            FltUnregisterFilter(gFilter);
        }
    }
    return status;
}
