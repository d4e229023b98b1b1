/* What the kernel has for every driver: locks, events, timers, lists, lookaside lists, tables, time, who asks, the registry. */
#include <fltKernel.h>

/* What the kit's compiler knows means what it means there. */
typedef struct __declspec(align(64)) _CACHE_LINE {
    ULONG Number;
} CACHE_LINE;
C_ASSERT(sizeof(CACHE_LINE) == 64);
C_ASSERT(FIELD_OFFSET(ACCESS_STATE, ObjectName) == 128);
C_ASSERT(MaximumWorkQueue == 7 && DPFLTR_FLTMGR_ID == 47);
__pragma(warning(disable : 4100))
__declspec(noinline) static PVOID SystemBufferOf(PIRP Irp)
{
    return Irp->AssociatedIrp.SystemBuffer;
}
static PVOID (*const gSystemBufferOf)(PIRP) __attribute__((unused)) = SystemBufferOf;

#define SHOW(e) DbgPrint("%s = %d\n", #e, (int)(e))

typedef struct _ITEM {
    LIST_ENTRY Links;
    SLIST_ENTRY Single;
    ULONG Number;
} ITEM, *PITEM;

PFLT_FILTER gFilterHandle;
static KTIMER gTimer;
static KDPC gDpc;
static KEVENT gEvent;
static LONG gFired;

static VOID Locks(VOID)
{
    ERESOURCE resource;
    EX_PUSH_LOCK push;
    FAST_MUTEX mutex;
    KSPIN_LOCK spin;
    EX_RUNDOWN_REF rundown;
    KIRQL irql;

    ExInitializeResourceLite(&resource);
    KeEnterCriticalRegion();
    ExAcquireResourceExclusiveLite(&resource, TRUE);
    ExAcquireResourceExclusiveLite(&resource, TRUE); /* an owner may */
    ExAcquireResourceSharedLite(&resource, TRUE);
    SHOW(ExIsResourceAcquiredExclusiveLite(&resource));
    SHOW(ExIsResourceAcquiredSharedLite(&resource));
    ExReleaseResourceLite(&resource);
    ExReleaseResourceLite(&resource);
    ExReleaseResourceLite(&resource);
    SHOW(ExIsResourceAcquiredSharedLite(&resource));
    KeLeaveCriticalRegion();
    FltAcquireResourceShared(&resource);
    SHOW(ExAcquireResourceExclusiveLite(&resource, FALSE));
    FltReleaseResource(&resource);
    ExDeleteResourceLite(&resource);

    FltInitializePushLock(&push);
    FltAcquirePushLockShared(&push);
    FltReleasePushLock(&push);
    FltDeletePushLock(&push);
    ExInitializeFastMutex(&mutex);
    ExAcquireFastMutex(&mutex);
    SHOW(KeGetCurrentIrql());
    ExReleaseFastMutex(&mutex);
    KeInitializeSpinLock(&spin);
    KeAcquireSpinLock(&spin, &irql);
    SHOW(KeGetCurrentIrql());
    KeReleaseSpinLock(&spin, irql);
    SHOW(KeGetCurrentIrql());

    ExInitializeRundownProtection(&rundown);
    SHOW(ExAcquireRundownProtection(&rundown));
    ExReleaseRundownProtection(&rundown);
    ExWaitForRundownProtectionRelease(&rundown);
    SHOW(ExAcquireRundownProtection(&rundown));
}

static VOID Lists(VOID)
{
    NPAGED_LOOKASIDE_LIST lookaside;
    LIST_ENTRY head;
    SLIST_HEADER single;
    PITEM item;
    ULONG i;

    ExInitializeNPagedLookasideList(&lookaside, NULL, NULL, 0, sizeof(ITEM), 'metI', 0);
    InitializeListHead(&head);
    ExInitializeSListHead(&single);
    for (i = 0; i < 3; i++) {
        item = ExAllocateFromNPagedLookasideList(&lookaside);
        item->Number = i;
        InsertTailList(&head, &item->Links);
        InterlockedPushEntrySList(&single, &item->Single);
    }
    SHOW(ExQueryDepthSList(&single));
    item = CONTAINING_RECORD(InterlockedPopEntrySList(&single), ITEM, Single);
    SHOW(item->Number);
    item = CONTAINING_RECORD(RemoveTailList(&head), ITEM, Links);
    SHOW(item->Number);
    ExFreeToNPagedLookasideList(&lookaside, item);
    while (!IsListEmpty(&head)) {
        ExFreeToNPagedLookasideList(&lookaside, CONTAINING_RECORD(RemoveHeadList(&head), ITEM, Links));
    }
    ExDeleteNPagedLookasideList(&lookaside);
}

static RTL_GENERIC_COMPARE_RESULTS CompareNumbers(PRTL_GENERIC_TABLE Table, PVOID First, PVOID Second)
{
    ULONG a = *(PULONG)First;
    ULONG b = *(PULONG)Second;

    UNREFERENCED_PARAMETER(Table);
    return a < b ? GenericLessThan : a > b ? GenericGreaterThan : GenericEqual;
}

static PVOID TakeMemory(PRTL_GENERIC_TABLE Table, CLONG Size)
{
    UNREFERENCED_PARAMETER(Table);
    return ExAllocatePoolWithTag(PagedPool, Size, 'elbT');
}

static VOID FreeMemory(PRTL_GENERIC_TABLE Table, PVOID Buffer)
{
    UNREFERENCED_PARAMETER(Table);
    ExFreePoolWithTag(Buffer, 'elbT');
}

static VOID Tables(VOID)
{
    RTL_AVL_TABLE table;
    BOOLEAN isNew;
    ULONG numbers[] = {7, 3, 9, 3};
    ULONG i;
    PULONG found;

    RtlInitializeGenericTableAvl(&table, CompareNumbers, TakeMemory, FreeMemory, NULL);
    for (i = 0; i < 4; i++) {
        RtlInsertElementGenericTableAvl(&table, &numbers[i], sizeof(ULONG), &isNew);
    }
    SHOW(isNew);
    SHOW(RtlNumberGenericTableElementsAvl(&table));
    for (found = RtlEnumerateGenericTableAvl(&table, TRUE); found != NULL; found = RtlEnumerateGenericTableAvl(&table, FALSE)) {
        DbgPrint("element %u\n", *found);
    }
    while ((found = RtlGetElementGenericTableAvl(&table, 0)) != NULL) {
        RtlDeleteElementGenericTableAvl(&table, found);
    }
}

static VOID Registry(PUNICODE_STRING RegistryPath)
{
    OBJECT_ATTRIBUTES attributes;
    UNICODE_STRING name;
    UCHAR room[64];
    PKEY_VALUE_PARTIAL_INFORMATION info = (PKEY_VALUE_PARTIAL_INFORMATION)room;
    HANDLE key;
    HANDLE below;
    ULONG length;

    InitializeObjectAttributes(&attributes, RegistryPath, OBJ_CASE_INSENSITIVE | OBJ_KERNEL_HANDLE, NULL, NULL);
    SHOW(ZwOpenKey(&key, KEY_READ, &attributes));
    RtlInitUnicodeString(&name, L"DebugFlags");
    SHOW(ZwQueryValueKey(key, &name, KeyValuePartialInformation, room, sizeof(room), &length));
    SHOW(info->Type == REG_DWORD && *(PULONG)info->Data == 0x1f);
    RtlInitUnicodeString(&name, L"Missing");
    SHOW(ZwQueryValueKey(key, &name, KeyValuePartialInformation, room, sizeof(room), &length) == STATUS_OBJECT_NAME_NOT_FOUND);
    RtlInitUnicodeString(&name, L"Parameters");
    InitializeObjectAttributes(&attributes, &name, OBJ_KERNEL_HANDLE, key, NULL);
    SHOW(ZwOpenKey(&below, KEY_READ, &attributes));
    RtlInitUnicodeString(&name, L"Extensions");
    SHOW(ZwQueryValueKey(below, &name, KeyValuePartialInformation, NULL, 0, &length) == STATUS_BUFFER_TOO_SMALL);
    SHOW(length - FIELD_OFFSET(KEY_VALUE_PARTIAL_INFORMATION, Data));
    SHOW(ZwQueryValueKey(below, &name, KeyValuePartialInformation, room, sizeof(room), &length));
    DbgPrint("%ws, type %u\n", (PWSTR)info->Data, info->Type);
    ZwClose(below);
    ZwClose(key);
}

static VOID Fire(PKDPC Dpc, PVOID Context, PVOID Argument1, PVOID Argument2)
{
    UNREFERENCED_PARAMETER(Dpc);
    UNREFERENCED_PARAMETER(Context);
    UNREFERENCED_PARAMETER(Argument1);
    UNREFERENCED_PARAMETER(Argument2);
    gFired++;
    DbgPrint("the timer fires at IRQL %u\n", KeGetCurrentIrql());
    KeSetEvent(&gEvent, IO_NO_INCREMENT, FALSE);
}

static VOID Time(VOID)
{
    LARGE_INTEGER now;
    LARGE_INTEGER due;
    TIME_FIELDS fields;

    KeQuerySystemTime(&now);
    RtlTimeToTimeFields(&now, &fields);
    DbgPrint("%d-%02d-%02d, weekday %d\n", fields.Year, fields.Month, fields.Day, fields.Weekday);
    KeInitializeEvent(&gEvent, SynchronizationEvent, FALSE);
    KeInitializeDpc(&gDpc, Fire, NULL);
    KeInitializeTimer(&gTimer);
    due.QuadPart = -10 * 1000 * 1000; /* in a second */
    SHOW(KeSetTimer(&gTimer, due, &gDpc));
    due.QuadPart = -1000;
    SHOW(KeWaitForSingleObject(&gEvent, Executive, KernelMode, FALSE, &due) == STATUS_TIMEOUT);
    SHOW(gFired);
}

static FLT_PREOP_CALLBACK_STATUS PreCreate(PFLT_CALLBACK_DATA Data, PCFLT_RELATED_OBJECTS FltObjects, PVOID *CompletionContext)
{
    UNREFERENCED_PARAMETER(FltObjects);
    UNREFERENCED_PARAMETER(CompletionContext);
    DbgPrint("process %u, thread %u, requestor %u, the same process: %d\n", HandleToULong(PsGetCurrentProcessId()), HandleToULong(PsGetCurrentThreadId()),
             FltGetRequestorProcessId(Data), FltGetRequestorProcess(Data) == IoThreadToProcess(Data->Thread));
    SHOW(Data->RequestorMode == UserMode && IoGetTopLevelIrp() == NULL && !FlagOn(Data->Iopb->IrpFlags, IRP_PAGING_IO));
    SHOW(Data->Iopb->Parameters.Create.SecurityContext->DesiredAccess == (FILE_GENERIC_READ | FILE_GENERIC_WRITE | DELETE));
    SHOW(Data->Iopb->Parameters.Create.Options >> 24 == FILE_CREATE);
    return FLT_PREOP_SUCCESS_NO_CALLBACK;
}

static NTSTATUS Unload(FLT_FILTER_UNLOAD_FLAGS Flags)
{
    UNREFERENCED_PARAMETER(Flags);
    SHOW(KeWaitForSingleObject(&gEvent, Executive, KernelMode, FALSE, NULL));
    SHOW(KeCancelTimer(&gTimer));
    FltUnregisterFilter(gFilterHandle);
    return STATUS_SUCCESS;
}

CONST FLT_OPERATION_REGISTRATION Callbacks[] = {{IRP_MJ_CREATE, 0, PreCreate, NULL}, {IRP_MJ_OPERATION_END}};
CONST FLT_REGISTRATION Registration = {sizeof(FLT_REGISTRATION), FLT_REGISTRATION_VERSION, 0, NULL, Callbacks, Unload};

NTSTATUS DriverEntry(PDRIVER_OBJECT DriverObject, PUNICODE_STRING RegistryPath)
{
    NTSTATUS status = FltRegisterFilter(DriverObject, &Registration, &gFilterHandle);

    Locks();
    Lists();
    Tables();
    Registry(RegistryPath);
    Time();
    return NT_SUCCESS(status) ? FltStartFiltering(gFilterHandle) : status;
}
