/* A read looks at a volatile flag and then acts by it: two of them may both find it free. */
#include "small.h"

static volatile LONG gIsTaken;
static LONG gOwners;

static FLT_PREOP_CALLBACK_STATUS PreRead(PFLT_CALLBACK_DATA Data, PCFLT_RELATED_OBJECTS FltObjects, PVOID *CompletionContext)
{
    UNREFERENCED_PARAMETER(Data);
    UNREFERENCED_PARAMETER(FltObjects);
    UNREFERENCED_PARAMETER(CompletionContext);
    if (!gIsTaken) {
        gIsTaken = 1;
        NT_ASSERT(InterlockedIncrement(&gOwners) == 1);
        InterlockedDecrement(&gOwners);
        gIsTaken = 0;
    }
    return FLT_PREOP_SUCCESS_NO_CALLBACK;
}

static const FLT_OPERATION_REGISTRATION Operations[] = {{IRP_MJ_READ, 0, PreRead}, {IRP_MJ_OPERATION_END}};

NTSTATUS DriverEntry(PDRIVER_OBJECT DriverObject, PUNICODE_STRING RegistryPath)
{
    UNREFERENCED_PARAMETER(RegistryPath);
    gIsTaken = gOwners = 0;
    return Register(DriverObject, Operations, NULL, NULL);
}
