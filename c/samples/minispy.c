/* Logs operations: a record of each goes from its preoperation to its postoperation, with times and with who asked, and is put in a list under a spin lock. Records come from
 * a lookaside list, and there are no more of them than the registry says. Without a program that reads the log, it prints it when it is unloaded. */
#include <fltKernel.h>
#include <dontuse.h>
#include <suppress.h>

#define SPY_TAG 'ypSM'
#define SPY_NAME_LETTERS 64
#define SPY_DEFAULT_RECORDS 500
#define SPY_MAX_RECORDS L"MaxRecords"

typedef struct _SPY_RECORD {
    LIST_ENTRY List;
    ULONG SequenceNumber;
    LARGE_INTEGER OriginatingTime;
    LARGE_INTEGER CompletionTime;
    HANDLE ProcessId;
    ULONG IrpFlags;
    UCHAR MajorFunction;
    NTSTATUS Status;
    ULONG_PTR Information;
    WCHAR Name[SPY_NAME_LETTERS];
} SPY_RECORD, *PSPY_RECORD;

typedef struct _SPY_DATA {
    PFLT_FILTER Filter;
    KSPIN_LOCK OutputBufferLock;
    LIST_ENTRY OutputBufferList;
    NPAGED_LOOKASIDE_LIST FreeBufferList;
    LONG MaxRecordsToAllocate;
    __volatile LONG RecordsAllocated;
    LONG LogSequenceNumber;
    LONG Lost;
} SPY_DATA;

static SPY_DATA SpyData;

static VOID SpyReadDriverParameters(_In_ PUNICODE_STRING RegistryPath)
{
    OBJECT_ATTRIBUTES attributes;
    HANDLE driverRegKey;
    ULONG resultLength;
    UNICODE_STRING valueName;
    UCHAR buffer[sizeof(KEY_VALUE_PARTIAL_INFORMATION) + sizeof(LONG)];

    InitializeObjectAttributes(&attributes, RegistryPath, OBJ_CASE_INSENSITIVE | OBJ_KERNEL_HANDLE, NULL, NULL);
    if (!NT_SUCCESS(ZwOpenKey(&driverRegKey, KEY_READ, &attributes))) {
        return;
    }
    RtlInitUnicodeString(&valueName, SPY_MAX_RECORDS);
    if (NT_SUCCESS(ZwQueryValueKey(driverRegKey, &valueName, KeyValuePartialInformation, buffer, sizeof(buffer), &resultLength))) {
        SpyData.MaxRecordsToAllocate = *(PLONG)((PKEY_VALUE_PARTIAL_INFORMATION)buffer)->Data;
    }
    ZwClose(driverRegKey);
}

static _Ret_maybenull_ PSPY_RECORD SpyNewRecord(VOID)
{
    PSPY_RECORD record = NULL;

    if (InterlockedIncrement(&SpyData.RecordsAllocated) <= SpyData.MaxRecordsToAllocate) {
        record = ExAllocateFromNPagedLookasideList(&SpyData.FreeBufferList);
    }
    if (record == NULL) {
        InterlockedDecrement(&SpyData.RecordsAllocated);
        InterlockedIncrement(&SpyData.Lost);
        return NULL;
    }
    RtlZeroMemory(record, sizeof(SPY_RECORD));
    record->SequenceNumber = (ULONG)InterlockedIncrement(&SpyData.LogSequenceNumber);
    return record;
}

static VOID SpyFreeRecord(_In_ PSPY_RECORD Record)
{
    InterlockedDecrement(&SpyData.RecordsAllocated);
    ExFreeToNPagedLookasideList(&SpyData.FreeBufferList, Record);
}

static VOID SpySetRecordName(_Inout_ PSPY_RECORD Record, _In_ PFLT_CALLBACK_DATA Data)
{
    PFLT_FILE_NAME_INFORMATION nameInfo;
    ULONG length;

    if (!NT_SUCCESS(FltGetFileNameInformation(Data, FLT_FILE_NAME_NORMALIZED | FLT_FILE_NAME_QUERY_ALWAYS_ALLOW_CACHE_LOOKUP, &nameInfo))) {
        return;
    }
    length = min(nameInfo->Name.Length, sizeof(Record->Name) - sizeof(UNICODE_NULL));
    RtlCopyMemory(Record->Name, nameInfo->Name.Buffer, length);
    Record->Name[length / sizeof(WCHAR)] = UNICODE_NULL;
    FltReleaseFileNameInformation(nameInfo);
}

static VOID SpyLog(_In_ PSPY_RECORD Record)
{
    KIRQL oldIrql;

    KeAcquireSpinLock(&SpyData.OutputBufferLock, &oldIrql);
    InsertTailList(&SpyData.OutputBufferList, &Record->List);
    KeReleaseSpinLock(&SpyData.OutputBufferLock, oldIrql);
}

static FLT_PREOP_CALLBACK_STATUS SpyPreOperationCallback(_Inout_ PFLT_CALLBACK_DATA Data, _In_ PCFLT_RELATED_OBJECTS FltObjects,
                                                         _Flt_CompletionContext_Outptr_ PVOID *CompletionContext)
{
    PSPY_RECORD record = SpyNewRecord();

    UNREFERENCED_PARAMETER(FltObjects);

    if (record == NULL) {
        return FLT_PREOP_SUCCESS_NO_CALLBACK;
    }
    SpySetRecordName(record, Data);
    record->MajorFunction = Data->Iopb->MajorFunction;
    record->IrpFlags = Data->Iopb->IrpFlags;
    record->ProcessId = PsGetCurrentProcessId();
    KeQuerySystemTime(&record->OriginatingTime);
    *CompletionContext = record;
    return FLT_PREOP_SUCCESS_WITH_CALLBACK;
}

static FLT_POSTOP_CALLBACK_STATUS SpyPostOperationCallback(_Inout_ PFLT_CALLBACK_DATA Data, _In_ PCFLT_RELATED_OBJECTS FltObjects, _In_ PVOID CompletionContext,
                                                           _In_ FLT_POST_OPERATION_FLAGS Flags)
{
    PSPY_RECORD record = CompletionContext;

    UNREFERENCED_PARAMETER(FltObjects);

    if (FlagOn(Flags, FLTFL_POST_OPERATION_DRAINING)) {
        SpyFreeRecord(record);
        return FLT_POSTOP_FINISHED_PROCESSING;
    }
    record->Status = Data->IoStatus.Status;
    record->Information = Data->IoStatus.Information;
    KeQuerySystemTime(&record->CompletionTime);
    SpyLog(record);
    return FLT_POSTOP_FINISHED_PROCESSING;
}

/* The lock isn't held while a record is printed. */
static VOID SpyEmptyOutputBufferList(VOID)
{
    PSPY_RECORD record;
    KIRQL oldIrql;

    KeAcquireSpinLock(&SpyData.OutputBufferLock, &oldIrql);
    while (!IsListEmpty(&SpyData.OutputBufferList)) {
        record = CONTAINING_RECORD(RemoveHeadList(&SpyData.OutputBufferList), SPY_RECORD, List);
        KeReleaseSpinLock(&SpyData.OutputBufferLock, oldIrql);
        DbgPrint("%03u %-24s %5Iu %-16S 0x%08x %Iu, in %I64d\n", record->SequenceNumber, FltGetIrpName(record->MajorFunction), (ULONG_PTR)record->ProcessId,
                 record->Name, record->Status, record->Information, record->CompletionTime.QuadPart - record->OriginatingTime.QuadPart);
        SpyFreeRecord(record);
        KeAcquireSpinLock(&SpyData.OutputBufferLock, &oldIrql);
    }
    KeReleaseSpinLock(&SpyData.OutputBufferLock, oldIrql);
}

static NTSTATUS SpyFilterUnload(_In_ FLT_FILTER_UNLOAD_FLAGS Flags)
{
    UNREFERENCED_PARAMETER(Flags);

    PAGED_CODE();

    FltUnregisterFilter(SpyData.Filter);
    SpyEmptyOutputBufferList();
    DbgPrint("Minispy: %d lost\n", SpyData.Lost);
    ExDeleteNPagedLookasideList(&SpyData.FreeBufferList);
    return STATUS_SUCCESS;
}

static NTSTATUS SpyQueryTeardown(_In_ PCFLT_RELATED_OBJECTS FltObjects, _In_ FLT_INSTANCE_QUERY_TEARDOWN_FLAGS Flags)
{
    UNREFERENCED_PARAMETER(FltObjects);
    UNREFERENCED_PARAMETER(Flags);

    PAGED_CODE();

    return STATUS_SUCCESS;
}

/* Of these some never come here: to register them is as in the kit. */
CONST FLT_OPERATION_REGISTRATION Callbacks[] = {{IRP_MJ_CREATE, 0, SpyPreOperationCallback, SpyPostOperationCallback},
                                                {IRP_MJ_CREATE_NAMED_PIPE, 0, SpyPreOperationCallback, SpyPostOperationCallback},
                                                {IRP_MJ_CLOSE, 0, SpyPreOperationCallback, SpyPostOperationCallback},
                                                {IRP_MJ_READ, 0, SpyPreOperationCallback, SpyPostOperationCallback},
                                                {IRP_MJ_WRITE, 0, SpyPreOperationCallback, SpyPostOperationCallback},
                                                {IRP_MJ_SET_INFORMATION, 0, SpyPreOperationCallback, SpyPostOperationCallback},
                                                {IRP_MJ_QUERY_EA, 0, SpyPreOperationCallback, SpyPostOperationCallback},
                                                {IRP_MJ_DIRECTORY_CONTROL, 0, SpyPreOperationCallback, SpyPostOperationCallback},
                                                {IRP_MJ_LOCK_CONTROL, 0, SpyPreOperationCallback, SpyPostOperationCallback},
                                                {IRP_MJ_CLEANUP, 0, SpyPreOperationCallback, SpyPostOperationCallback},
                                                {IRP_MJ_MDL_READ, 0, SpyPreOperationCallback, SpyPostOperationCallback},
                                                {IRP_MJ_OPERATION_END}};

CONST FLT_REGISTRATION FilterRegistration = {
    sizeof(FLT_REGISTRATION), FLT_REGISTRATION_VERSION, 0, NULL, Callbacks, SpyFilterUnload, NULL, SpyQueryTeardown, NULL, NULL, NULL, NULL, NULL};

NTSTATUS DriverEntry(_In_ PDRIVER_OBJECT DriverObject, _In_ PUNICODE_STRING RegistryPath)
{
    NTSTATUS status = STATUS_SUCCESS;

    SpyData.Filter = NULL;
    SpyData.MaxRecordsToAllocate = SPY_DEFAULT_RECORDS;
    SpyData.RecordsAllocated = SpyData.LogSequenceNumber = SpyData.Lost = 0;
    try {
        InitializeListHead(&SpyData.OutputBufferList);
        KeInitializeSpinLock(&SpyData.OutputBufferLock);
        ExInitializeNPagedLookasideList(&SpyData.FreeBufferList, NULL, NULL, POOL_NX_ALLOCATION, sizeof(SPY_RECORD), SPY_TAG, 0);
        SpyReadDriverParameters(RegistryPath);
        status = FltRegisterFilter(DriverObject, &FilterRegistration, &SpyData.Filter);
        if (!NT_SUCCESS(status)) {
            leave;
        }
        status = FltStartFiltering(SpyData.Filter);
    } finally {
        if (!NT_SUCCESS(status)) {
            if (SpyData.Filter != NULL) {
                FltUnregisterFilter(SpyData.Filter);
            }
            ExDeleteNPagedLookasideList(&SpyData.FreeBufferList);
        }
    }
    return status;
}
