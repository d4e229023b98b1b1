/* Reads and writes copy a text into one buffer, and no lock is around it. */
#include "small.h"

static WCHAR gRoom[16];
static UNICODE_STRING gLast = {0, sizeof(gRoom), gRoom};

static FLT_PREOP_CALLBACK_STATUS Pre(PFLT_CALLBACK_DATA Data, PCFLT_RELATED_OBJECTS FltObjects, PVOID *CompletionContext)
{
    UNICODE_STRING read = RTL_CONSTANT_STRING(L"a read"), write = RTL_CONSTANT_STRING(L"a write");
    UNREFERENCED_PARAMETER(FltObjects);
    UNREFERENCED_PARAMETER(CompletionContext);
    RtlCopyUnicodeString(&gLast, Data->Iopb->MajorFunction == IRP_MJ_READ ? &read : &write);
    return FLT_PREOP_SUCCESS_NO_CALLBACK;
}

static const FLT_OPERATION_REGISTRATION Operations[] = {{IRP_MJ_READ, 0, Pre}, {IRP_MJ_WRITE, 0, Pre}, {IRP_MJ_OPERATION_END}};

NTSTATUS DriverEntry(PDRIVER_OBJECT DriverObject, PUNICODE_STRING RegistryPath)
{
    UNREFERENCED_PARAMETER(RegistryPath);
    return Register(DriverObject, Operations, NULL, NULL);
}
