/* Reads and writes count themselves in one table of the kit, and no lock is around it: two of them may change the tree at once. */
#include "small.h"

static RTL_GENERIC_TABLE gSeen;

static RTL_GENERIC_COMPARE_RESULTS NTAPI Compare(PRTL_GENERIC_TABLE Table, PVOID First, PVOID Second)
{
    UCHAR first = *(PUCHAR)First, second = *(PUCHAR)Second;
    UNREFERENCED_PARAMETER(Table);
    return first < second ? GenericLessThan : first > second ? GenericGreaterThan : GenericEqual;
}

static PVOID NTAPI Allocate(PRTL_GENERIC_TABLE Table, CLONG Size)
{
    UNREFERENCED_PARAMETER(Table);
    return ExAllocatePoolWithTag(NonPagedPool, Size, 'elbT');
}

static VOID NTAPI Free(PRTL_GENERIC_TABLE Table, PVOID Entry)
{
    UNREFERENCED_PARAMETER(Table);
    ExFreePoolWithTag(Entry, 'elbT');
}

static FLT_PREOP_CALLBACK_STATUS Pre(PFLT_CALLBACK_DATA Data, PCFLT_RELATED_OBJECTS FltObjects, PVOID *CompletionContext)
{
    UCHAR major = Data->Iopb->MajorFunction;
    UNREFERENCED_PARAMETER(FltObjects);
    UNREFERENCED_PARAMETER(CompletionContext);
    RtlInsertElementGenericTable(&gSeen, &major, sizeof(major), NULL);
    return FLT_PREOP_SUCCESS_NO_CALLBACK;
}

static VOID Empty(PCFLT_RELATED_OBJECTS FltObjects, FLT_INSTANCE_TEARDOWN_FLAGS Reason)
{
    UNREFERENCED_PARAMETER(FltObjects);
    UNREFERENCED_PARAMETER(Reason);
    while (RtlNumberGenericTableElements(&gSeen) > 0) {
        UCHAR major = *(PUCHAR)RtlGetElementGenericTable(&gSeen, 0);
        RtlDeleteElementGenericTable(&gSeen, &major);
    }
}

static const FLT_OPERATION_REGISTRATION Operations[] = {{IRP_MJ_READ, 0, Pre}, {IRP_MJ_WRITE, 0, Pre}, {IRP_MJ_OPERATION_END}};

NTSTATUS DriverEntry(PDRIVER_OBJECT DriverObject, PUNICODE_STRING RegistryPath)
{
    UNREFERENCED_PARAMETER(RegistryPath);
    RtlInitializeGenericTable(&gSeen, Compare, Allocate, Free, NULL);
    return Register(DriverObject, Operations, NULL, Empty);
}
