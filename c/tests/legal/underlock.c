/* Under a spin lock it calls what may be called at DISPATCH_LEVEL: events, nonpaged pool and lists, references, times, counted strings without tables, tables of its own memory, MDLs, work items. */
#include <fltKernel.h>

#define UNDER_TAG 'dnuU'

typedef struct {
    LIST_ENTRY Link;
} UNDER_ITEM, *PUNDER_ITEM;

static PFLT_FILTER gFilter;
static KSPIN_LOCK gLock;
static KEVENT gEvent;
static LIST_ENTRY gList;
static KSPIN_LOCK gListLock;
static RTL_AVL_TABLE gTable;
static NPAGED_LOOKASIDE_LIST gItems;
static UNICODE_STRING gName = RTL_CONSTANT_STRING(L"under");

static RTL_GENERIC_COMPARE_RESULTS NTAPI Compare(PRTL_AVL_TABLE Table, PVOID First, PVOID Second)
{
    ULONG first = *(PULONG)First, second = *(PULONG)Second;

    UNREFERENCED_PARAMETER(Table);
    return first < second ? GenericLessThan : first > second ? GenericGreaterThan : GenericEqual;
}

static PVOID NTAPI Allocate(PRTL_AVL_TABLE Table, CLONG Size)
{
    UNREFERENCED_PARAMETER(Table);
    return ExAllocatePoolZero(NonPagedPool, Size, UNDER_TAG);
}

static VOID NTAPI Free(PRTL_AVL_TABLE Table, PVOID Buffer)
{
    UNREFERENCED_PARAMETER(Table);
    ExFreePoolWithTag(Buffer, UNDER_TAG);
}

static VOID Objects(PFLT_CALLBACK_DATA Data, PCFLT_RELATED_OBJECTS FltObjects)
{
    LARGE_INTEGER now, tick;

    ObReferenceObject(FltObjects->FileObject);
    ObDereferenceObject(FltObjects->FileObject);
    KeSetEvent(&gEvent, IO_NO_INCREMENT, FALSE);
    if (KeReadStateEvent(&gEvent) != 0) {
        KeClearEvent(&gEvent);
    }
    KeQuerySystemTime(&now);
    KeQueryTickCount(&tick);
    if (FltGetRequestorProcessId(Data) == 0 || PsGetCurrentThread() == NULL || IoGetTopLevelIrp() == (PIRP)&now) {
        KeBugCheckEx(1, 0, 0, 0, 0);
    }
    if (FltIsOperationSynchronous(Data) && FLT_IS_IRP_OPERATION(Data)) {
        FltSetCallbackDataDirty(Data);
        FltClearCallbackDataDirty(Data);
    }
}

static VOID Memory(VOID)
{
    WCHAR room[16];
    UNICODE_STRING copy = {0, sizeof room, room};
    ULONG number = 7;
    BOOLEAN isNew;
    PMDL mdl;
    PUNDER_ITEM item = ExAllocateFromNPagedLookasideList(&gItems);

    RtlCopyUnicodeString(&copy, &gName);
    RtlAppendUnicodeToString(&copy, L"lock");
    RtlInsertElementGenericTableAvl(&gTable, &number, sizeof number, &isNew);
    if (RtlLookupElementGenericTableAvl(&gTable, &number) != NULL) {
        RtlDeleteElementGenericTableAvl(&gTable, &number);
    }
    if (item == NULL) {
        return;
    }
    ExInterlockedInsertTailList(&gList, &item->Link, &gListLock);
    ExInterlockedRemoveHeadList(&gList, &gListLock);
    mdl = IoAllocateMdl(item, sizeof *item, FALSE, FALSE, NULL);
    if (mdl != NULL) {
        MmBuildMdlForNonPagedPool(mdl);
        IoFreeMdl(mdl);
    }
    ExFreeToNPagedLookasideList(&gItems, item);
}

static FLT_PREOP_CALLBACK_STATUS Pre(_Inout_ PFLT_CALLBACK_DATA Data, _In_ PCFLT_RELATED_OBJECTS FltObjects, _Flt_CompletionContext_Outptr_ PVOID *CompletionContext)
{
    KIRQL irql;

    UNREFERENCED_PARAMETER(CompletionContext);
    KeAcquireSpinLock(&gLock, &irql);
    Objects(Data, FltObjects);
    Memory();
    KeReleaseSpinLock(&gLock, irql);
    return FLT_PREOP_SUCCESS_NO_CALLBACK;
}

static NTSTATUS Unload(_In_ FLT_FILTER_UNLOAD_FLAGS Flags)
{
    UNREFERENCED_PARAMETER(Flags);
    FltUnregisterFilter(gFilter);
    ExDeleteNPagedLookasideList(&gItems);
    return STATUS_SUCCESS;
}

static const FLT_OPERATION_REGISTRATION Operations[] = {{IRP_MJ_READ, 0, Pre}, {IRP_MJ_WRITE, 0, Pre}, {IRP_MJ_FLUSH_BUFFERS, 0, Pre}, {IRP_MJ_OPERATION_END}};

NTSTATUS DriverEntry(_In_ PDRIVER_OBJECT DriverObject, _In_ PUNICODE_STRING RegistryPath)
{
    FLT_REGISTRATION registration = {.Size = sizeof(FLT_REGISTRATION), .Version = FLT_REGISTRATION_VERSION, .OperationRegistration = Operations, .FilterUnloadCallback = Unload};
    NTSTATUS status;

    UNREFERENCED_PARAMETER(RegistryPath);
    KeInitializeSpinLock(&gLock);
    KeInitializeSpinLock(&gListLock);
    KeInitializeEvent(&gEvent, NotificationEvent, FALSE);
    InitializeListHead(&gList);
    RtlInitializeGenericTableAvl(&gTable, Compare, Allocate, Free, NULL);
    ExInitializeNPagedLookasideList(&gItems, NULL, NULL, 0, sizeof(UNDER_ITEM), UNDER_TAG, 0);
    status = FltRegisterFilter(DriverObject, &registration, &gFilter);
    if (NT_SUCCESS(status)) {
        status = FltStartFiltering(gFilter);
        if (!NT_SUCCESS(status)) {
            FltUnregisterFilter(gFilter);
        }
    }
    if (!NT_SUCCESS(status)) {
        ExDeleteNPagedLookasideList(&gItems);
    }
    return status;
}
