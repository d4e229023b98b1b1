/* What only a binary shows: code and constants that can be paged out, and are used at DISPATCH_LEVEL; code of INIT that is called later; a constant that is written; a stack of the kernel that is
 * too small. Each read asks for one of them, or for its right neighbour. */
#include <fltKernel.h>

#define PAGED __attribute__((section("PAGE"), noinline))
#define FIRST __attribute__((section("INIT"), noinline))
#define PAGED_CONSTANT __attribute__((section("PAGECONS")))
#define PAGED_VARIABLE __attribute__((section("PAGEDATA")))

static PFLT_FILTER gFilter;
static KSPIN_LOCK gLock;
PAGED_CONSTANT const ULONG gLimit = 7;
PAGED_VARIABLE ULONG gCount = 7;
const ULONG gFixed = 5;

PAGED static VOID Paged(PCSTR Where)
{
    DbgPrint("sections: paged code %s\n", Where);
}

PAGED static VOID PagedWithLock(VOID)
{
    KIRQL before;

    KeAcquireSpinLock(&gLock, &before);
    KeReleaseSpinLock(&gLock, before);
}

FIRST static VOID First(PCSTR Where)
{
    DbgPrint("sections: first %s\n", Where);
}

static VOID Deep(ULONG Levels)
{
    volatile UCHAR room[4096];

    room[0] = (UCHAR)Levels;
    if (Levels > 1)
        Deep(Levels - 1);
    else
        DbgPrint("sections: at the end\n");
    room[1] = room[0];
}

static VOID Wide(VOID)
{
    volatile UCHAR room[28 << 10];

    room[0] = 0;
}

static VOID Endless(volatile ULONG *Count)
{
    volatile UCHAR room[4096];

    room[0] = (UCHAR)++*Count;
    Endless(Count);
    room[1] = room[0];
}

static VOID AtDispatch(ULONG Kind)
{
    KIRQL before;
    ULONG limit = 0;

    KeRaiseIrql(DISPATCH_LEVEL, &before);
    if (Kind == 1)
        Paged("at DISPATCH_LEVEL");
    else if (Kind == 9)
        limit = gCount++;
    else if (Kind == 10)
        limit = *(volatile ULONG *)NULL;
    else
        limit = *(volatile const ULONG *)&gLimit;
    KeLowerIrql(before);
    DbgPrint("sections: limit %u\n", limit);
}

static FLT_PREOP_CALLBACK_STATUS PreRead(PFLT_CALLBACK_DATA Data, PCFLT_RELATED_OBJECTS FltObjects, PVOID *CompletionContext)
{
    ULONG count = 0, kind = Data->Iopb->Parameters.Read.ByteOffset.LowPart;

    UNREFERENCED_PARAMETER(FltObjects);
    UNREFERENCED_PARAMETER(CompletionContext);
    switch (kind) {
    case 0:
        Paged("at PASSIVE_LEVEL");
        DbgPrint("sections: limit %u\n", *(volatile const ULONG *)&gLimit);
        Deep(5);
        break;
    case 1:
    case 2:
    case 9:
    case 10:
        AtDispatch(kind);
        break;
    case 3:
        PagedWithLock();
        break;
    case 4:
        First("later");
        break;
    case 5:
        Deep(7);
        break;
    case 6:
        *(volatile ULONG *)&gFixed = 6;
        break;
    case 7:
        Endless(&count);
        break;
    case 8:
        Wide();
        break;
    }
    return FLT_PREOP_SUCCESS_NO_CALLBACK;
}

static NTSTATUS Unload(FLT_FILTER_UNLOAD_FLAGS Flags)
{
    UNREFERENCED_PARAMETER(Flags);
    FltUnregisterFilter(gFilter);
    return STATUS_SUCCESS;
}

static const FLT_OPERATION_REGISTRATION operations[] = {{IRP_MJ_READ, 0, PreRead}, {IRP_MJ_OPERATION_END}};
static const FLT_REGISTRATION registration = {sizeof(registration), FLT_REGISTRATION_VERSION, 0, NULL, operations, Unload};

NTSTATUS DriverEntry(PDRIVER_OBJECT DriverObject, PUNICODE_STRING RegistryPath)
{
    NTSTATUS status = FltRegisterFilter(DriverObject, &registration, &gFilter);

    UNREFERENCED_PARAMETER(RegistryPath);
    KeInitializeSpinLock(&gLock);
    First("in DriverEntry");
    return NT_SUCCESS(status) ? FltStartFiltering(gFilter) : status;
}
