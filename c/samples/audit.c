/* A log of what was done: a record of each create, write, disposition and close, with its status. Without a port to a program of its own, it prints the log
 * when it is unloaded. */
#include <fltKernel.h>

#define AUDIT_TAG 'tduA'
#define AUDIT_NAME_LETTERS 64

typedef struct _AUDIT_RECORD {
    LIST_ENTRY Links;
    ULONG SequenceNumber;
    UCHAR MajorFunction;
    NTSTATUS Status;
    ULONG_PTR Information;
    UNICODE_STRING Name;
    WCHAR NameBuffer[AUDIT_NAME_LETTERS];
} AUDIT_RECORD, *PAUDIT_RECORD;

typedef struct _AUDIT_DATA {
    PFLT_FILTER Filter;
    LIST_ENTRY Records;
    KSPIN_LOCK Lock;
    LONG LastNumber;
    LONG Dropped;
} AUDIT_DATA;

static AUDIT_DATA AuditData;

static const char *AuditName(_In_ UCHAR MajorFunction)
{
    switch (MajorFunction) {
    case IRP_MJ_CREATE:
        return "CREATE";
    case IRP_MJ_WRITE:
        return "WRITE";
    case IRP_MJ_SET_INFORMATION:
        return "SET_INFORMATION";
    default:
        return "CLOSE";
    }
}

static PAUDIT_RECORD AuditNewRecord(_In_ PFLT_CALLBACK_DATA Data)
{
    PAUDIT_RECORD record;
    PFLT_FILE_NAME_INFORMATION nameInfo;

    record = ExAllocatePoolWithTag(NonPagedPool, sizeof(AUDIT_RECORD), AUDIT_TAG);
    if (record == NULL) {
        InterlockedIncrement(&AuditData.Dropped);
        return NULL;
    }
    record->MajorFunction = Data->Iopb->MajorFunction;
    record->SequenceNumber = (ULONG)InterlockedIncrement(&AuditData.LastNumber);
    record->Name.Length = 0;
    record->Name.MaximumLength = sizeof(record->NameBuffer);
    record->Name.Buffer = record->NameBuffer;
    if (NT_SUCCESS(FltGetFileNameInformation(Data, FLT_FILE_NAME_NORMALIZED | FLT_FILE_NAME_QUERY_ALWAYS_ALLOW_CACHE_LOOKUP, &nameInfo))) {
        RtlCopyUnicodeString(&record->Name, &nameInfo->Name);
        FltReleaseFileNameInformation(nameInfo);
    }
    return record;
}

static FLT_PREOP_CALLBACK_STATUS AuditPreOperation(_Inout_ PFLT_CALLBACK_DATA Data, _In_ PCFLT_RELATED_OBJECTS FltObjects,
                                                   _Flt_CompletionContext_Outptr_ PVOID *CompletionContext)
{
    PAUDIT_RECORD record;

    UNREFERENCED_PARAMETER(FltObjects);

    record = AuditNewRecord(Data);
    if (record == NULL) {
        return FLT_PREOP_SUCCESS_NO_CALLBACK;
    }
    *CompletionContext = record;
    return FLT_PREOP_SUCCESS_WITH_CALLBACK;
}

static FLT_POSTOP_CALLBACK_STATUS AuditPostOperation(_Inout_ PFLT_CALLBACK_DATA Data, _In_ PCFLT_RELATED_OBJECTS FltObjects,
                                                     _In_opt_ PVOID CompletionContext, _In_ FLT_POST_OPERATION_FLAGS Flags)
{
    PAUDIT_RECORD record = CompletionContext;
    KIRQL irql;

    UNREFERENCED_PARAMETER(FltObjects);

    if (FlagOn(Flags, FLTFL_POST_OPERATION_DRAINING)) {
        ExFreePoolWithTag(record, AUDIT_TAG);
        return FLT_POSTOP_FINISHED_PROCESSING;
    }
    record->Status = Data->IoStatus.Status;
    record->Information = Data->IoStatus.Information;
    KeAcquireSpinLock(&AuditData.Lock, &irql);
    InsertTailList(&AuditData.Records, &record->Links);
    KeReleaseSpinLock(&AuditData.Lock, irql);
    return FLT_POSTOP_FINISHED_PROCESSING;
}

static VOID AuditPrintAndFree(VOID)
{
    PAUDIT_RECORD record;

    while (!IsListEmpty(&AuditData.Records)) {
        record = CONTAINING_RECORD(RemoveHeadList(&AuditData.Records), AUDIT_RECORD, Links);
        DbgPrint("%03u %-16s %wZ 0x%08x %llu\n", record->SequenceNumber, AuditName(record->MajorFunction), &record->Name, record->Status,
                 (ULONGLONG)record->Information);
        ExFreePoolWithTag(record, AUDIT_TAG);
    }
}

static NTSTATUS AuditQueryTeardown(_In_ PCFLT_RELATED_OBJECTS FltObjects, _In_ FLT_INSTANCE_QUERY_TEARDOWN_FLAGS Flags)
{
    UNREFERENCED_PARAMETER(FltObjects);
    UNREFERENCED_PARAMETER(Flags);
    return STATUS_SUCCESS;
}

static NTSTATUS AuditUnload(_In_ FLT_FILTER_UNLOAD_FLAGS Flags)
{
    UNREFERENCED_PARAMETER(Flags);
    FltUnregisterFilter(AuditData.Filter);
    AuditPrintAndFree();
    return STATUS_SUCCESS;
}

CONST FLT_OPERATION_REGISTRATION Callbacks[] = {{IRP_MJ_CREATE, 0, AuditPreOperation, AuditPostOperation},
                                                {IRP_MJ_WRITE, 0, AuditPreOperation, AuditPostOperation},
                                                {IRP_MJ_SET_INFORMATION, 0, AuditPreOperation, AuditPostOperation},
                                                {IRP_MJ_CLOSE, 0, AuditPreOperation, AuditPostOperation},
                                                {IRP_MJ_OPERATION_END}};

CONST FLT_REGISTRATION FilterRegistration = {sizeof(FLT_REGISTRATION), FLT_REGISTRATION_VERSION, 0,    NULL, Callbacks, AuditUnload, NULL,
                                             AuditQueryTeardown,       NULL,                     NULL, NULL, NULL,      NULL};

NTSTATUS DriverEntry(_In_ PDRIVER_OBJECT DriverObject, _In_ PUNICODE_STRING RegistryPath)
{
    NTSTATUS status;

    UNREFERENCED_PARAMETER(RegistryPath);

    InitializeListHead(&AuditData.Records);
    KeInitializeSpinLock(&AuditData.Lock);
    AuditData.LastNumber = 0;
    status = FltRegisterFilter(DriverObject, &FilterRegistration, &AuditData.Filter);
    if (NT_SUCCESS(status)) {
        status = FltStartFiltering(AuditData.Filter);
        if (!NT_SUCCESS(status)) {
            FltUnregisterFilter(AuditData.Filter);
        }
    }
    return status;
}
