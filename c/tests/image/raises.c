/* Exceptions: a read's offset says which kind its preoperation raises, and the line that it prints says which blocks ran, in their order, and with which status it came out. */
#include <fltKernel.h>

#define FIRST ((NTSTATUS)0xE0000001)
#define SECOND ((NTSTATUS)0xE0000002)

enum { NONE, RAISED, WRITTEN, COPIED, DIVIDED, MISALIGNED, PROBED, AGAIN, FILTERED, RETURNED, PASSED };

static PFLT_FILTER gFilter;
static char gSteps[24];
static ULONG gCount;

static VOID Step(CHAR What)
{
    gSteps[gCount++] = What;
    gSteps[gCount] = 0;
}

__declspec(noinline) static VOID Raise(ULONG Kind, volatile LONG *Nowhere)
{
    UCHAR room[200];

    RtlFillMemory(room, sizeof(room), (UCHAR)Kind);
    switch (Kind) {
    case RAISED:
    case AGAIN:
    case FILTERED:
    case PASSED:
        ExRaiseStatus(FIRST);
        break;
    case WRITTEN:
        *Nowhere = 1;
        break;
    case COPIED:
        RtlCopyMemory((PVOID)Nowhere, room, sizeof(room));
        break;
    case DIVIDED:
        gCount += 7 / (LONG)(room[0] - DIVIDED);
        break;
    case MISALIGNED:
        ProbeForRead((PVOID)3, 8, 4);
        break;
    case PROBED:
        ProbeForWrite((PVOID)(ULONG_PTR)0xffff800000000000, 8, 1);
        break;
    }
    Step('r');
}

__declspec(noinline) static VOID Middle(ULONG Kind)
{
    __try {
        Raise(Kind, NULL);
    } __finally {
        Step(AbnormalTermination() ? 'F' : 'f');
        if (Kind == AGAIN)
            ExRaiseStatus(SECOND);
    }
}

static LONG Look(ULONG Kind, NTSTATUS Code, PEXCEPTION_POINTERS Pointers)
{
    Step('l');
    if (Pointers->ExceptionRecord->ExceptionCode != (ULONG)Code)
        Step('?');
    if (Kind == FILTERED && Code == FIRST)
        ExRaiseStatus(SECOND);
    return Code == STATUS_DATATYPE_MISALIGNMENT ? EXCEPTION_CONTINUE_SEARCH : EXCEPTION_EXECUTE_HANDLER;
}

__declspec(noinline) static NTSTATUS Inner(ULONG Kind)
{
    __try {
        Middle(Kind);
        if (Kind == RETURNED)
            return STATUS_PENDING;
    } __except (Kind == PASSED ? EXCEPTION_CONTINUE_SEARCH : Look(Kind, GetExceptionCode(), GetExceptionInformation())) {
        Step('h');
        return GetExceptionCode();
    }
    return STATUS_SUCCESS;
}

__declspec(noinline) static NTSTATUS Outer(ULONG Kind, ULONG Kept)
{
    ULONG volatile kept = Kept;
    NTSTATUS status;

    __try {
        status = Inner(Kind);
    } __except (EXCEPTION_EXECUTE_HANDLER) {
        Step('H');
        status = GetExceptionCode();
    }
    if (kept != Kept)
        Step('!');
    return status;
}

static FLT_PREOP_CALLBACK_STATUS PreRead(PFLT_CALLBACK_DATA Data, PCFLT_RELATED_OBJECTS FltObjects, PVOID *CompletionContext)
{
    ULONG kind = Data->Iopb->Parameters.Read.ByteOffset.LowPart;
    NTSTATUS status;

    UNREFERENCED_PARAMETER(FltObjects);
    UNREFERENCED_PARAMETER(CompletionContext);
    gCount = 0;
    status = Outer(kind, 77);
    DbgPrint("raises %u: 0x%08x %s\n", kind, status, gSteps);
    return FLT_PREOP_SUCCESS_NO_CALLBACK;
}

/* Nobody takes it: that is a crash, at its line. */
static FLT_PREOP_CALLBACK_STATUS PreWrite(PFLT_CALLBACK_DATA Data, PCFLT_RELATED_OBJECTS FltObjects, PVOID *CompletionContext)
{
    UNREFERENCED_PARAMETER(Data);
    UNREFERENCED_PARAMETER(FltObjects);
    UNREFERENCED_PARAMETER(CompletionContext);
    *(volatile LONG *)8 = 1;
    return FLT_PREOP_SUCCESS_NO_CALLBACK;
}

static NTSTATUS Unload(FLT_FILTER_UNLOAD_FLAGS Flags)
{
    UNREFERENCED_PARAMETER(Flags);
    FltUnregisterFilter(gFilter);
    return STATUS_SUCCESS;
}

static const FLT_OPERATION_REGISTRATION operations[] = {{IRP_MJ_READ, 0, PreRead}, {IRP_MJ_WRITE, 0, PreWrite}, {IRP_MJ_OPERATION_END}};
static const FLT_REGISTRATION registration = {sizeof(registration), FLT_REGISTRATION_VERSION, 0, NULL, operations, Unload};

NTSTATUS DriverEntry(PDRIVER_OBJECT DriverObject, PUNICODE_STRING RegistryPath)
{
    NTSTATUS status = FltRegisterFilter(DriverObject, &registration, &gFilter);

    UNREFERENCED_PARAMETER(RegistryPath);
    return NT_SUCCESS(status) ? FltStartFiltering(gFilter) : status;
}
