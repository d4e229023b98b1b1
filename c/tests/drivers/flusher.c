/* Flushes and purges the cache of a file as it is asked for its extended attributes, and says what it was told. */
#include <fltKernel.h>

static PFLT_FILTER gFilter;
static PVOID gContext; /* of the first file that was asked for them */

static FLT_PREOP_CALLBACK_STATUS PreEa(PFLT_CALLBACK_DATA Data, PCFLT_RELATED_OBJECTS FltObjects, PVOID *CompletionContext)
{
    PFILE_OBJECT file = FltObjects->FileObject;
    BOOLEAN isCached = CcIsFileCached(file), isPurged;
    IO_STATUS_BLOCK io;

    UNREFERENCED_PARAMETER(Data);
    UNREFERENCED_PARAMETER(CompletionContext);
    gContext = gContext == NULL ? file->FsContext : gContext;
    CcFlushCache(file->SectionObjectPointer, NULL, 0, &io);
    isPurged = CcPurgeCacheSection(file->SectionObjectPointer, NULL, 0, FALSE);
    DbgPrint("  cached %u, flushed 0x%08x, purged %u, may be cut %u\n", isCached, io.Status, isPurged, MmCanFileBeTruncated(file->SectionObjectPointer, NULL));
    return FLT_PREOP_SUCCESS_NO_CALLBACK;
}

static FLT_PREOP_CALLBACK_STATUS PreSecurity(PFLT_CALLBACK_DATA Data, PCFLT_RELATED_OBJECTS FltObjects, PVOID *CompletionContext)
{
    UNREFERENCED_PARAMETER(CompletionContext);
    DbgPrint("  the same stream %u, flushed and purged 0x%08x\n", FltObjects->FileObject->FsContext == gContext,
             FltFlushBuffers2(FltObjects->Instance, FltObjects->FileObject, FLT_FLUSH_TYPE_FLUSH_AND_PURGE, Data));
    return FLT_PREOP_SUCCESS_NO_CALLBACK;
}

static NTSTATUS Unload(FLT_FILTER_UNLOAD_FLAGS Flags)
{
    UNREFERENCED_PARAMETER(Flags);
    FltUnregisterFilter(gFilter);
    return STATUS_SUCCESS;
}

static const FLT_OPERATION_REGISTRATION gOperations[] = {{IRP_MJ_QUERY_EA, 0, PreEa, NULL}, {IRP_MJ_QUERY_SECURITY, 0, PreSecurity, NULL}, {IRP_MJ_OPERATION_END}};
static const FLT_REGISTRATION gRegistration = {sizeof(FLT_REGISTRATION), FLT_REGISTRATION_VERSION, 0, NULL, gOperations, Unload};

NTSTATUS DriverEntry(PDRIVER_OBJECT DriverObject, PUNICODE_STRING RegistryPath)
{
    NTSTATUS status = FltRegisterFilter(DriverObject, &gRegistration, &gFilter);

    UNREFERENCED_PARAMETER(RegistryPath);
    if (NT_SUCCESS(status)) {
        status = FltStartFiltering(gFilter);
        if (!NT_SUCCESS(status)) {
            FltUnregisterFilter(gFilter);
        }
    }
    return status;
}
