/* What compiled kernel code does by itself, without a call of the kit: the IRQL in cr8, the current thread behind gs, the kernel's page of times, locked instructions, lookaside lists, a
 * breakpoint, an assertion; and calls with more arguments than there are registers. A load finds its variables as they were linked. */
#include <fltKernel.h>

/* The kernel exports the first, which this kit hasn't; nobody exports the second. */
NTKERNELAPI NTSTATUS HeadlessDispatch(ULONG Value);
NTKERNELAPI NTSTATUS RtlInitUnicodeStrings(ULONG Value);

static PFLT_FILTER gFilter;
static ULONG gLoads = 3;
static NPAGED_LOOKASIDE_LIST gList;

static VOID Times(VOID)
{
    LARGE_INTEGER called, read;
    ULONG ticks;

    KeQuerySystemTime(&called);
    read.LowPart = *(volatile ULONG *)(ULONG_PTR)0xfffff78000000014;
    read.HighPart = *(volatile LONG *)(ULONG_PTR)0xfffff78000000018;
    ticks = *(volatile ULONG *)(ULONG_PTR)0xfffff78000000320;
    DbgPrint("inlines: times %s, ticks %s\n", read.QuadPart == called.QuadPart ? "alike" : "differ", ticks > 0 ? "there" : "missing");
}

static VOID Levels(VOID)
{
    KIRQL before;

    KeRaiseIrql(DISPATCH_LEVEL, &before);
    DbgPrint("inlines: from %u to %u, thread %s\n", before, KeGetCurrentIrql(), (PVOID)KeGetCurrentThread() == (PVOID)PsGetCurrentThread() ? "alike" : "differs");
    KeLowerIrql(before);
    DbgPrint("inlines: back at %u\n", KeGetCurrentIrql());
}

/* Somebody jumps to it and behind it: there is no room for anything else than the instruction itself. */
static VOID LevelInTheWay(VOID)
{
    ULONG64 level;

    __asm__ volatile("jmp 1f\n1: movq %%cr8, %%rax\n2: testb $16, %%al\njnz 2b\nmovq %%rax, %0" : "=m"(level) : : "rax", "cc");
    DbgPrint("inlines: still at %u\n", (ULONG)level);
}

static VOID Lists(VOID)
{
    PULONG first = ExAllocateFromNPagedLookasideList(&gList), second = ExAllocateFromNPagedLookasideList(&gList);

    *first = 1;
    *second = 2;
    DbgPrint("inlines: %u %u\n", *first, *second);
    ExFreeToNPagedLookasideList(&gList, second);
    ExFreeToNPagedLookasideList(&gList, first);
}

static FLT_PREOP_CALLBACK_STATUS PreRead(PFLT_CALLBACK_DATA Data, PCFLT_RELATED_OBJECTS FltObjects, PVOID *CompletionContext)
{
    UNREFERENCED_PARAMETER(Data);
    UNREFERENCED_PARAMETER(FltObjects);
    UNREFERENCED_PARAMETER(CompletionContext);
    Levels();
    LevelInTheWay();
    Times();
    Lists();
    DbgPrint("inlines: %d %u %c %s %S %I64d\n", -1, 2u, '3', "four", L"five", (LONG64)-6);
    DbgPrint("inlines: 0x%08x\n", HeadlessDispatch(1));
    DbgPrint("inlines: 0x%08x\n", RtlInitUnicodeStrings(1));
    return FLT_PREOP_SUCCESS_NO_CALLBACK;
}

static FLT_PREOP_CALLBACK_STATUS PreWrite(PFLT_CALLBACK_DATA Data, PCFLT_RELATED_OBJECTS FltObjects, PVOID *CompletionContext)
{
    UNREFERENCED_PARAMETER(FltObjects);
    UNREFERENCED_PARAMETER(CompletionContext);
    switch (Data->Iopb->Parameters.Write.ByteOffset.LowPart) {
    case 0:
        __asm__ volatile("int $0x2c");
        break;
    case 1:
        __asm__ volatile("int3");
        break;
    case 2:
        __asm__ volatile("int $0x29" : : "c"(5));
        break;
    }
    return FLT_PREOP_SUCCESS_NO_CALLBACK;
}

static NTSTATUS Unload(FLT_FILTER_UNLOAD_FLAGS Flags)
{
    UNREFERENCED_PARAMETER(Flags);
    FltUnregisterFilter(gFilter);
    ExDeleteNPagedLookasideList(&gList);
    return STATUS_SUCCESS;
}

static const FLT_OPERATION_REGISTRATION operations[] = {{IRP_MJ_READ, 0, PreRead}, {IRP_MJ_WRITE, 0, PreWrite}, {IRP_MJ_OPERATION_END}};
static const FLT_REGISTRATION registration = {sizeof(registration), FLT_REGISTRATION_VERSION, 0, NULL, operations, Unload};

NTSTATUS DriverEntry(PDRIVER_OBJECT DriverObject, PUNICODE_STRING RegistryPath)
{
    NTSTATUS status = FltRegisterFilter(DriverObject, &registration, &gFilter);

    UNREFERENCED_PARAMETER(RegistryPath);
    DbgPrint("inlines: loaded with %u\n", gLoads++);
    if (!NT_SUCCESS(status))
        return status;
    ExInitializeNPagedLookasideList(&gList, NULL, NULL, 0, sizeof(ULONG), 'lnIK', 0);
    return FltStartFiltering(gFilter);
}
