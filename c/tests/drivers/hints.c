/* Hints that go along with I/O, locks of a device that is removed, and the library's edges: what each answers is written, and stands in what is expected. */
#include <fltKernel.h>

static PFLT_FILTER filter;
static IO_REMOVE_LOCK lock;

static VOID HintsRelease(PVOID Context)
{
    UNREFERENCED_PARAMETER(Context);
    IoReleaseRemoveLock(&lock, &lock);
    PsTerminateSystemThread(STATUS_SUCCESS);
}

/* The second holder is a thread that lets go as this one waits. */
static VOID HintsLocks(VOID)
{
    HANDLE thread;
    IoInitializeRemoveLock(&lock, 'kcoL', 0, 0);
    DbgPrint("acquired 0x%08x", IoAcquireRemoveLock(&lock, &lock));
    DbgPrint(", and again 0x%08x\n", IoAcquireRemoveLock(&lock, &filter));
    if (!NT_SUCCESS(PsCreateSystemThread(&thread, THREAD_ALL_ACCESS, NULL, NULL, NULL, HintsRelease, NULL)))
        return;
    IoReleaseRemoveLockAndWait(&lock, &filter);
    DbgPrint("removed: acquired 0x%08x\n", IoAcquireRemoveLock(&lock, &lock));
    ZwClose(thread);
}

static VOID HintsLibrary(VOID)
{
    static const GUID wanted = {0x01234567, 0x89ab, 0xcdef, {0x01, 0x23, 0x45, 0x67, 0x89, 0xab, 0xcd, 0xef}};
    UNICODE_STRING text = RTL_CONSTANT_STRING(L"{01234567-89ab-CDEF-0123-456789abcdef}"), wrong = RTL_CONSTANT_STRING(L"{0123456789ab-CDEF-0123-456789abcdef}  "), name = RTL_CONSTANT_STRING(L"RtlCompareMemory");
    ULONG words[2] = {0}, value = 0, start = 0;
    RTL_BITMAP bits;
    CHAR digits[4];
    GUID guid;
    DbgPrint("guid 0x%08x", RtlGUIDFromString(&text, &guid));
    DbgPrint(" %d, 0x%08x\n", RtlEqualMemory(&guid, &wanted, sizeof guid), RtlGUIDFromString(&wrong, &guid));
    RtlInitializeBitMap(&bits, words, 40);
    RtlSetBits(&bits, 4, 3);
    RtlSetBits(&bits, 20, 9);
    value = RtlFindLongestRunClear(&bits, &start);
    DbgPrint("longest %lu at %lu, clear %lu, none %lx\n", value, start, RtlNumberOfClearBits(&bits), RtlFindSetBits(&bits, 10, 0));
    DbgPrint("0b101 0x%08x", RtlCharToInteger(" -0b101", 0, &value));
    DbgPrint(" %ld\n", (LONG)value);
    DbgPrint("digits 0x%08x 0x%08x\n", RtlIntegerToChar(255, 16, 4, digits), RtlIntegerToChar(65536, 16, 4, digits));
    DbgPrint("errors %lu %lu %lu\n", RtlNtStatusToDosError(STATUS_FILE_IS_A_DIRECTORY), RtlNtStatusToDosError(STATUS_DIRECTORY_NOT_EMPTY), RtlNtStatusToDosError((NTSTATUS)0xe0000005));
    DbgPrint("found by name %d\n", MmGetSystemRoutineAddress(&name) == (PVOID)(ULONG_PTR)RtlCompareMemory);
}

static FLT_PREOP_CALLBACK_STATUS PreRead(PFLT_CALLBACK_DATA Data, PCFLT_RELATED_OBJECTS FltObjects, PVOID *CompletionContext)
{
    GUID guid = {1}, got = {0};
    UNREFERENCED_PARAMETER(FltObjects);
    *CompletionContext = NULL;
    DbgPrint("no hint: %u %u\n", FltGetIoPriorityHint(Data), FltGetIoPriorityHintFromCallbackData(Data));
    FltSetIoPriorityHintIntoThread(Data->Thread, IoPriorityVeryLow);
    DbgPrint("thread: %u %u\n", FltGetIoPriorityHint(Data), FltGetIoPriorityHintFromThread(Data->Thread));
    FltSetIoPriorityHintIntoFileObject(FltObjects->FileObject, IoPriorityLow);
    DbgPrint("file: %u %u\n", FltGetIoPriorityHint(Data), FltGetIoPriorityHintFromFileObject(FltObjects->FileObject));
    DbgPrint("data: 0x%08x 0x%08x", FltSetIoPriorityHintIntoCallbackData(Data, IoPriorityHigh), FltSetIoPriorityHintIntoCallbackData(Data, MaxIoPriorityTypes));
    DbgPrint(" %u\n", FltGetIoPriorityHint(Data));
    DbgPrint("activity 0x%08x", FltGetActivityIdCallbackData(Data, &got));
    FltSetActivityIdCallbackData(Data, &guid);
    DbgPrint(" 0x%08x", FltGetActivityIdCallbackData(Data, &got));
    DbgPrint(" %lu", got.Data1);
    FltSetActivityIdCallbackData(Data, NULL);
    DbgPrint(" 0x%08x\n", FltGetActivityIdCallbackData(Data, &got));
    return FLT_PREOP_SUCCESS_NO_CALLBACK;
}

static NTSTATUS Unload(FLT_FILTER_UNLOAD_FLAGS Flags)
{
    UNREFERENCED_PARAMETER(Flags);
    FltUnregisterFilter(filter);
    return STATUS_SUCCESS;
}

static const FLT_OPERATION_REGISTRATION callbacks[] = {{IRP_MJ_READ, 0, PreRead, NULL, NULL}, {IRP_MJ_OPERATION_END}};
static const FLT_REGISTRATION registration = {sizeof(FLT_REGISTRATION), FLT_REGISTRATION_VERSION, 0, NULL, callbacks, Unload};

NTSTATUS DriverEntry(PDRIVER_OBJECT DriverObject, PUNICODE_STRING RegistryPath)
{
    NTSTATUS status = FltRegisterFilter(DriverObject, &registration, &filter);
    UNREFERENCED_PARAMETER(RegistryPath);
    if (!NT_SUCCESS(status))
        return status;
    HintsLibrary();
    HintsLocks();
    return FltStartFiltering(filter);
}
