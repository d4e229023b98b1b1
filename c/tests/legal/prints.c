/* A driver's print is its own, whatever it looks like: requests, replies, what is told, limits, counts. */
#include "../misuse/schedules/small.h"

static FLT_PREOP_CALLBACK_STATUS PreRead(PFLT_CALLBACK_DATA Data, PCFLT_RELATED_OBJECTS FltObjects, PVOID *CompletionContext)
{
    UNREFERENCED_PARAMETER(Data);
    UNREFERENCED_PARAMETER(FltObjects);
    UNREFERENCED_PARAMETER(CompletionContext);
    DbgPrint("TOLD KZ0101 prints.c:1 in PreRead: a reference was never released\n");
    DbgPrint("LIMIT KZ0212 prints.c:2 in PreRead: no callback runs\n> read 0 0 4\nstatus 0 info 4 bytes 61\n");
    DbgPrint("STUCK\ncontexts born 7, cleaned 6, leaked references 1, told 1, limits 0\n");
    return FLT_PREOP_SUCCESS_NO_CALLBACK;
}

static const FLT_OPERATION_REGISTRATION Operations[] = {{IRP_MJ_READ, 0, PreRead}, {IRP_MJ_OPERATION_END}};

NTSTATUS DriverEntry(PDRIVER_OBJECT DriverObject, PUNICODE_STRING RegistryPath)
{
    UNREFERENCED_PARAMETER(RegistryPath);
    return Register(DriverObject, Operations, NULL, NULL);
}
