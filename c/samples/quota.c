/* A quota: the bytes that the files of a volume may have together. An instance context has the sum, a stream context what a file has of it. A write or a new end of file that
 * would go past the quota is completed with STATUS_QUOTA_EXCEEDED. The registry has the quota. */
#include <fltKernel.h>
#include <dontuse.h>
#include <suppress.h>

#define QUOTA_INSTANCE_TAG 'IuoQ'
#define QUOTA_STREAM_TAG 'SuoQ'
#define QUOTA_DEFAULT 1024

typedef struct _QUOTA_INSTANCE_CONTEXT {
    EX_PUSH_LOCK Lock;
    LONGLONG Used;
    ULONG Refused;
} QUOTA_INSTANCE_CONTEXT, *PQUOTA_INSTANCE_CONTEXT;

/* Under the lock of its instance. */
typedef struct _QUOTA_STREAM_CONTEXT {
    LONGLONG Size;
} QUOTA_STREAM_CONTEXT, *PQUOTA_STREAM_CONTEXT;

/* From a preoperation to its postoperation: both contexts, and the size that the file is to have. */
typedef struct _QUOTA_CHANGE {
    PQUOTA_INSTANCE_CONTEXT InstanceContext;
    PQUOTA_STREAM_CONTEXT StreamContext;
    LONGLONG Before;
} QUOTA_CHANGE, *PQUOTA_CHANGE;

static PFLT_FILTER gFilterHandle;
static LONGLONG gQuota = QUOTA_DEFAULT;

static RTL_QUERY_REGISTRY_TABLE gValues[] = {{NULL, RTL_QUERY_REGISTRY_DIRECT, L"Quota", NULL, REG_NONE, NULL, 0}, {NULL, 0, NULL, NULL, REG_NONE, NULL, 0}};

static VOID QuotaReadParameters(_In_ PUNICODE_STRING RegistryPath)
{
    ULONG quota = QUOTA_DEFAULT;

    PAGED_CODE();

    gValues[0].EntryContext = &quota;
    if (NT_SUCCESS(RtlQueryRegistryValues(RTL_REGISTRY_ABSOLUTE, RegistryPath->Buffer, gValues, NULL, NULL))) {
        gQuota = quota;
    }
}

static VOID QuotaInstanceCleanup(_In_ PFLT_CONTEXT Context, _In_ FLT_CONTEXT_TYPE ContextType)
{
    PQUOTA_INSTANCE_CONTEXT instanceContext = Context;

    UNREFERENCED_PARAMETER(ContextType);

    DbgPrint("Quota: %I64d of %I64d bytes used, %u refused\n", instanceContext->Used, gQuota, instanceContext->Refused);
    FltDeletePushLock(&instanceContext->Lock);
}

static NTSTATUS QuotaInstanceSetup(_In_ PCFLT_RELATED_OBJECTS FltObjects, _In_ FLT_INSTANCE_SETUP_FLAGS Flags, _In_ DEVICE_TYPE VolumeDeviceType,
                                   _In_ FLT_FILESYSTEM_TYPE VolumeFilesystemType)
{
    PQUOTA_INSTANCE_CONTEXT instanceContext;
    NTSTATUS status;

    UNREFERENCED_PARAMETER(Flags);

    if (VolumeDeviceType != FILE_DEVICE_DISK_FILE_SYSTEM || VolumeFilesystemType != FLT_FSTYPE_NTFS) {
        return STATUS_FLT_DO_NOT_ATTACH;
    }
    status = FltAllocateContext(FltObjects->Filter, FLT_INSTANCE_CONTEXT, sizeof(QUOTA_INSTANCE_CONTEXT), NonPagedPool, (PFLT_CONTEXT *)&instanceContext);
    if (!NT_SUCCESS(status)) {
        return status;
    }
    RtlZeroMemory(instanceContext, sizeof(QUOTA_INSTANCE_CONTEXT));
    FltInitializePushLock(&instanceContext->Lock);
    status = FltSetInstanceContext(FltObjects->Instance, FLT_SET_CONTEXT_KEEP_IF_EXISTS, instanceContext, NULL);
    FltReleaseContext(instanceContext);
    return status;
}

/* A file that is made has nothing yet; of one that is opened it isn't known what it had before this filter came. */
static FLT_POSTOP_CALLBACK_STATUS QuotaPostCreate(_Inout_ PFLT_CALLBACK_DATA Data, _In_ PCFLT_RELATED_OBJECTS FltObjects, _In_opt_ PVOID CompletionContext,
                                                  _In_ FLT_POST_OPERATION_FLAGS Flags)
{
    PQUOTA_STREAM_CONTEXT streamContext;

    UNREFERENCED_PARAMETER(CompletionContext);

    if (FlagOn(Flags, FLTFL_POST_OPERATION_DRAINING) || !NT_SUCCESS(Data->IoStatus.Status) || Data->IoStatus.Information != FILE_CREATED) {
        return FLT_POSTOP_FINISHED_PROCESSING;
    }
    if (NT_SUCCESS(FltAllocateContext(gFilterHandle, FLT_STREAM_CONTEXT, sizeof(QUOTA_STREAM_CONTEXT), PagedPool, (PFLT_CONTEXT *)&streamContext))) {
        streamContext->Size = 0;
        FltSetStreamContext(FltObjects->Instance, FltObjects->FileObject, FLT_SET_CONTEXT_KEEP_IF_EXISTS, streamContext, NULL);
        FltReleaseContext(streamContext);
    }
    return FLT_POSTOP_FINISHED_PROCESSING;
}

static VOID QuotaLetGo(_In_ PQUOTA_CHANGE Change)
{
    FltReleaseContext(Change->StreamContext);
    FltReleaseContext(Change->InstanceContext);
    ExFreePoolWithTag(Change, QUOTA_STREAM_TAG);
}

/* Both contexts of an operation; NULL if the file isn't counted. */
static PQUOTA_CHANGE QuotaNewChange(_In_ PCFLT_RELATED_OBJECTS FltObjects)
{
    PQUOTA_CHANGE change = ExAllocatePoolZero(NonPagedPool, sizeof(QUOTA_CHANGE), QUOTA_STREAM_TAG);

    if (change == NULL) {
        return NULL;
    }
    if (!NT_SUCCESS(FltGetStreamContext(FltObjects->Instance, FltObjects->FileObject, (PFLT_CONTEXT *)&change->StreamContext))) {
        ExFreePoolWithTag(change, QUOTA_STREAM_TAG);
        return NULL;
    }
    if (!NT_SUCCESS(FltGetInstanceContext(FltObjects->Instance, (PFLT_CONTEXT *)&change->InstanceContext))) {
        FltReleaseContext(change->StreamContext);
        ExFreePoolWithTag(change, QUOTA_STREAM_TAG);
        return NULL;
    }
    return change;
}

/* Takes what the file is to have more, before the file system has it: two operations at once mustn't both find room for theirs. */
static FLT_PREOP_CALLBACK_STATUS QuotaTake(_Inout_ PFLT_CALLBACK_DATA Data, _In_ PCFLT_RELATED_OBJECTS FltObjects, _In_ LONGLONG End, _In_ BOOLEAN MayShrink,
                                           _Flt_CompletionContext_Outptr_ PVOID *CompletionContext)
{
    PQUOTA_CHANGE change = QuotaNewChange(FltObjects);
    BOOLEAN isRefused;

    if (change == NULL) {
        return FLT_PREOP_SUCCESS_NO_CALLBACK;
    }
    FltAcquirePushLockExclusive(&change->InstanceContext->Lock);
    change->Before = change->StreamContext->Size;
    if (End < change->Before && !MayShrink) {
        End = change->Before;
    }
    isRefused = change->InstanceContext->Used + End - change->Before > gQuota;
    if (isRefused) {
        change->InstanceContext->Refused++;
    } else {
        change->InstanceContext->Used += End - change->Before;
        change->StreamContext->Size = End;
    }
    FltReleasePushLock(&change->InstanceContext->Lock);
    if (isRefused) {
        QuotaLetGo(change);
        Data->IoStatus.Status = STATUS_QUOTA_EXCEEDED;
        Data->IoStatus.Information = 0;
        return FLT_PREOP_COMPLETE;
    }
    *CompletionContext = change;
    /* Its postoperation takes the lock again, which may not be done at DISPATCH_LEVEL. */
    return FLT_IS_IRP_OPERATION(Data) ? FLT_PREOP_SYNCHRONIZE : FLT_PREOP_SUCCESS_WITH_CALLBACK;
}

static FLT_PREOP_CALLBACK_STATUS QuotaPreWrite(_Inout_ PFLT_CALLBACK_DATA Data, _In_ PCFLT_RELATED_OBJECTS FltObjects,
                                               _Flt_CompletionContext_Outptr_ PVOID *CompletionContext)
{
    /* Paging I/O makes no file larger: it writes whole pages of what was counted before. */
    if (FlagOn(Data->Iopb->IrpFlags, IRP_PAGING_IO)) {
        return FLT_PREOP_SUCCESS_NO_CALLBACK;
    }
    return QuotaTake(Data, FltObjects, Data->Iopb->Parameters.Write.ByteOffset.QuadPart + Data->Iopb->Parameters.Write.Length, FALSE, CompletionContext);
}

static FLT_PREOP_CALLBACK_STATUS QuotaPreSetInformation(_Inout_ PFLT_CALLBACK_DATA Data, _In_ PCFLT_RELATED_OBJECTS FltObjects,
                                                        _Flt_CompletionContext_Outptr_ PVOID *CompletionContext)
{
    /* With AdvanceOnly the lazy writer says how far it has come. */
    if (Data->Iopb->Parameters.SetFileInformation.FileInformationClass != FileEndOfFileInformation || Data->Iopb->Parameters.SetFileInformation.AdvanceOnly) {
        return FLT_PREOP_SUCCESS_NO_CALLBACK;
    }
    return QuotaTake(Data, FltObjects, ((PFILE_END_OF_FILE_INFORMATION)Data->Iopb->Parameters.SetFileInformation.InfoBuffer)->EndOfFile.QuadPart, TRUE,
                     CompletionContext);
}

/* What failed is given back. */
static FLT_POSTOP_CALLBACK_STATUS QuotaPostChange(_Inout_ PFLT_CALLBACK_DATA Data, _In_ PCFLT_RELATED_OBJECTS FltObjects, _In_ PVOID CompletionContext,
                                                  _In_ FLT_POST_OPERATION_FLAGS Flags)
{
    PQUOTA_CHANGE change = CompletionContext;

    UNREFERENCED_PARAMETER(FltObjects);

    if (!FlagOn(Flags, FLTFL_POST_OPERATION_DRAINING) && !NT_SUCCESS(Data->IoStatus.Status)) {
        FltAcquirePushLockExclusive(&change->InstanceContext->Lock);
        change->InstanceContext->Used -= change->StreamContext->Size - change->Before;
        change->StreamContext->Size = change->Before;
        FltReleasePushLock(&change->InstanceContext->Lock);
    }
    QuotaLetGo(change);
    return FLT_POSTOP_FINISHED_PROCESSING;
}

static NTSTATUS QuotaUnload(_In_ FLT_FILTER_UNLOAD_FLAGS Flags)
{
    UNREFERENCED_PARAMETER(Flags);
    FltUnregisterFilter(gFilterHandle);
    return STATUS_SUCCESS;
}

CONST FLT_OPERATION_REGISTRATION Callbacks[] = {{IRP_MJ_CREATE, 0, NULL, QuotaPostCreate},
                                                {IRP_MJ_WRITE, 0, QuotaPreWrite, QuotaPostChange},
                                                {IRP_MJ_SET_INFORMATION, 0, QuotaPreSetInformation, QuotaPostChange},
                                                {IRP_MJ_OPERATION_END}};

CONST FLT_CONTEXT_REGISTRATION ContextRegistration[] = {
    {FLT_INSTANCE_CONTEXT, 0, QuotaInstanceCleanup, sizeof(QUOTA_INSTANCE_CONTEXT), QUOTA_INSTANCE_TAG},
    {FLT_STREAM_CONTEXT, 0, NULL, sizeof(QUOTA_STREAM_CONTEXT), QUOTA_STREAM_TAG},
    {FLT_CONTEXT_END}};

CONST FLT_REGISTRATION FilterRegistration = {
    sizeof(FLT_REGISTRATION), FLT_REGISTRATION_VERSION, 0, ContextRegistration, Callbacks, QuotaUnload, QuotaInstanceSetup, NULL, NULL, NULL};

NTSTATUS DriverEntry(_In_ PDRIVER_OBJECT DriverObject, _In_ PUNICODE_STRING RegistryPath)
{
    NTSTATUS status;

    QuotaReadParameters(RegistryPath);
    status = FltRegisterFilter(DriverObject, &FilterRegistration, &gFilterHandle);
    if (NT_SUCCESS(status)) {
        status = FltStartFiltering(gFilterHandle);
        if (!NT_SUCCESS(status)) {
            FltUnregisterFilter(gFilterHandle);
        }
    }
    return status;
}
