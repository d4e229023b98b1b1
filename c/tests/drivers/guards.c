/* Exceptions as drivers use them: a write's bytes are an address that its caller names, and what is there is copied; a read's offset picks one of the ways out of a block. */
#include <fltKernel.h>

#define OURS ((NTSTATUS)0xE0000001)
#define OTHER ((NTSTATUS)0xE0000002)

static PFLT_FILTER gFilter;
static FAST_MUTEX gLock;
static ULONG gBytes;

typedef struct {
    ULONG_PTR Address, Write;
} SEEN;

/* A call, since not each compiler has a block count for what isn't one. */
__declspec(noinline) static LONG Fetch(PVOID From)
{
    return *(volatile LONG *)From;
}

/* What the processor refused: a read or a write, and where. */
static LONG Filter(PEXCEPTION_POINTERS Pointers, SEEN *Seen)
{
    PEXCEPTION_RECORD record = Pointers->ExceptionRecord;

    if (record->ExceptionCode != STATUS_ACCESS_VIOLATION || record->NumberParameters < 2) {
        return EXCEPTION_CONTINUE_SEARCH;
    }
    Seen->Write = record->ExceptionInformation[0];
    Seen->Address = record->ExceptionInformation[1];
    return EXCEPTION_EXECUTE_HANDLER;
}

/* As a message's callback does it: what the caller names is looked at and copied once, under a guard. */
static NTSTATUS Capture(PVOID From, ULONG Length, PUCHAR To)
{
    NTSTATUS status = STATUS_SUCCESS;
    ULONG step = 0;

    __try {
        step = 1;
        ProbeForRead(From, Length, sizeof(UCHAR));
        step = 2;
        RtlCopyMemory(To, From, Length);
        step = 3;
    } __except (EXCEPTION_EXECUTE_HANDLER) {
        status = GetExceptionCode();
    }
    DbgPrint("capture: step %u, 0x%08x\n", step, status);
    return status;
}

static NTSTATUS First(PVOID From)
{
    SEEN seen = {0, 0};
    LONG value = 1, before = 0;

    try {
        value = 2;
        before = value;
        value = Fetch(From);
        value = 3;
    } except (Filter(GetExceptionInformation(), &seen)) {
        DbgPrint("first: value %d, before %d, write %u at 0x%x\n", value, before, (ULONG)seen.Write, (ULONG)seen.Address);
        return GetExceptionCode();
    }
    return STATUS_SUCCESS;
}

static VOID Count(PVOID From)
{
    ExAcquireFastMutex(&gLock);
    try {
        gBytes += Fetch(From);
    } finally {
        ExReleaseFastMutex(&gLock);
        DbgPrint("count: abnormal %u\n", AbnormalTermination());
    }
}

static NTSTATUS Sum(PVOID From)
{
    __try {
        __try {
            Count(From);
        } __except (GetExceptionCode() == OURS ? EXCEPTION_EXECUTE_HANDLER : EXCEPTION_CONTINUE_SEARCH) {
            DbgPrint("never\n");
        }
    } __except (EXCEPTION_EXECUTE_HANDLER) {
        NTSTATUS code = GetExceptionCode();
        __try {
            ExRaiseStatus(OURS);
        } __except (EXCEPTION_EXECUTE_HANDLER) {
            DbgPrint("sum: 0x%08x inside 0x%08x, 0x%08x\n", GetExceptionCode(), code, gBytes);
        }
        return GetExceptionCode();
    }
    return STATUS_SUCCESS;
}

static FLT_PREOP_CALLBACK_STATUS PreWrite(PFLT_CALLBACK_DATA Data, PCFLT_RELATED_OBJECTS FltObjects, PVOID *CompletionContext)
{
    UCHAR room[16];
    PVOID from = NULL;
    NTSTATUS status;

    UNREFERENCED_PARAMETER(FltObjects);
    UNREFERENCED_PARAMETER(CompletionContext);
    if (Data->Iopb->Parameters.Write.Length != sizeof(from)) {
        return FLT_PREOP_SUCCESS_NO_CALLBACK;
    }
    __try {
        from = *(PVOID *)Data->Iopb->Parameters.Write.WriteBuffer;
    } __except (EXCEPTION_EXECUTE_HANDLER) {
        Data->IoStatus.Status = GetExceptionCode();
        return FLT_PREOP_COMPLETE;
    }
    status = Capture(from, sizeof(room), room);
    if (NT_SUCCESS(status)) {
        return FLT_PREOP_SUCCESS_NO_CALLBACK;
    }
    if ((ULONG_PTR)from < MmUserProbeAddress) {
        NTSTATUS first = First(from);
        DbgPrint("first 0x%08x, sum 0x%08x\n", first, Sum(from));
    }
    Data->IoStatus.Status = status;
    Data->IoStatus.Information = 0;
    return FLT_PREOP_COMPLETE;
}

/* Each way out of a block. */
static ULONG Ways(ULONG Way)
{
    ULONG turn, ended = 0, found = 0;

    for (turn = 0; turn < 3; turn++) {
        __try {
            if (Way == 1) {
                __leave;
            }
            if (Way == 2) {
                break;
            }
            if (Way == 3) {
                continue;
            }
            if (Way == 4) {
                return 100 + turn;
            }
            if (Way == 5) {
                goto out;
            }
            if (Way == 6) {
                ExRaiseStatus(OURS);
            }
            found += 10;
        } __finally {
            ULONG one;
            for (one = 0; one < 4; one++) {
                ULONG twice = 2 * one;
                if (twice == 4) {
                    break;
                }
                ended++;
            }
            DbgPrint("way %u, turn %u, abnormal %u, ended %u\n", Way, turn, AbnormalTermination(), ended);
        }
    }
    return ended + found;
out:
    return 1000 + ended;
}

static NTSTATUS Recurse(ULONG Depth)
{
    NTSTATUS status = STATUS_SUCCESS;

    __try {
        if (Depth == 0) {
            ExRaiseStatus(OURS);
        }
        status = Recurse(Depth - 1);
    } __except (Depth == 3 && GetExceptionCode() == OURS ? EXCEPTION_EXECUTE_HANDLER : EXCEPTION_CONTINUE_SEARCH) {
        status = GetExceptionCode() + (NTSTATUS)Depth;
    }
    return status;
}

/* The finally block of one raises another, which goes on in place of the first. */
static NTSTATUS Replace(VOID)
{
    __try {
        __try {
            __try {
                ExRaiseStatus(OURS);
            } __finally {
                DbgPrint("replace: inner %u\n", AbnormalTermination());
                ExRaiseStatus(OTHER);
            }
        } __finally {
            DbgPrint("replace: outer %u\n", AbnormalTermination());
        }
    } __except (EXCEPTION_EXECUTE_HANDLER) {
        return GetExceptionCode();
    }
    return STATUS_SUCCESS;
}

/* A handler raises on. */
static NTSTATUS Again(VOID)
{
    __try {
        __try {
            ExRaiseStatus(OURS);
        } __except (EXCEPTION_EXECUTE_HANDLER) {
            ExRaiseStatus(GetExceptionCode() + 4);
        }
    } __except (EXCEPTION_EXECUTE_HANDLER) {
        return GetExceptionCode();
    }
    return STATUS_SUCCESS;
}

static FLT_PREOP_CALLBACK_STATUS PreRead(PFLT_CALLBACK_DATA Data, PCFLT_RELATED_OBJECTS FltObjects, PVOID *CompletionContext)
{
    ULONG way = Data->Iopb->Parameters.Read.ByteOffset.LowPart, answer = 0;

    UNREFERENCED_PARAMETER(FltObjects);
    UNREFERENCED_PARAMETER(CompletionContext);
    __try {
        answer = way == 7 ? (ULONG)Recurse(5) : way == 8 ? (ULONG)Replace() : way == 9 ? (ULONG)Again() : Ways(way);
    } __except (GetExceptionCode() == OURS) {
        answer = 99;
    }
    DbgPrint("way %u: %x\n", way, answer);
    return FLT_PREOP_SUCCESS_NO_CALLBACK;
}

static NTSTATUS Unload(FLT_FILTER_UNLOAD_FLAGS Flags)
{
    UNREFERENCED_PARAMETER(Flags);
    FltUnregisterFilter(gFilter);
    return STATUS_SUCCESS;
}

static const FLT_OPERATION_REGISTRATION operations[] = {{IRP_MJ_READ, 0, PreRead}, {IRP_MJ_WRITE, 0, PreWrite}, {IRP_MJ_OPERATION_END}};
static const FLT_REGISTRATION registration = {sizeof(registration), FLT_REGISTRATION_VERSION, 0, NULL, operations, Unload};

NTSTATUS DriverEntry(PDRIVER_OBJECT DriverObject, PUNICODE_STRING RegistryPath)
{
    NTSTATUS status = FltRegisterFilter(DriverObject, &registration, &gFilter);

    UNREFERENCED_PARAMETER(RegistryPath);
    ExInitializeFastMutex(&gLock);
    return NT_SUCCESS(status) ? FltStartFiltering(gFilter) : status;
}
