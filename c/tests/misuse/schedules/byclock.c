/* A read goes by the processor's clock: the same schedule comes to another choice. That is no mistake, and no search of it is whole. */
#include "small.h"

static volatile LONG gOdd;

static FLT_PREOP_CALLBACK_STATUS PreRead(PFLT_CALLBACK_DATA Data, PCFLT_RELATED_OBJECTS FltObjects, PVOID *CompletionContext)
{
    UNREFERENCED_PARAMETER(Data);
    UNREFERENCED_PARAMETER(FltObjects);
    UNREFERENCED_PARAMETER(CompletionContext);
    for (int at = 0; at < 8; at++) {
        if (__builtin_ia32_rdtsc() >> 5 & 1) {
            InterlockedIncrement(&gOdd);
        }
    }
    return FLT_PREOP_SUCCESS_NO_CALLBACK;
}

static const FLT_OPERATION_REGISTRATION Operations[] = {{IRP_MJ_READ, 0, PreRead, NULL}, {IRP_MJ_OPERATION_END}};

NTSTATUS DriverEntry(PDRIVER_OBJECT DriverObject, PUNICODE_STRING RegistryPath)
{
    UNREFERENCED_PARAMETER(RegistryPath);
    return Register(DriverObject, Operations, NULL, NULL);
}
