/* A write's bytes are a command with its own length. That is looked at in the caller's buffer, and is there once more as it is used: another thread of the program may have changed it meanwhile. */
#include "small.h"

typedef struct _COMMAND {
    ULONG Length;
    UCHAR Bytes[8];
} COMMAND, *PCOMMAND;

static UCHAR gRoom[32768];

static FLT_PREOP_CALLBACK_STATUS PreWrite(PFLT_CALLBACK_DATA Data, PCFLT_RELATED_OBJECTS FltObjects, PVOID *CompletionContext)
{
    PCOMMAND command = Data->Iopb->Parameters.Write.WriteBuffer;

    UNREFERENCED_PARAMETER(FltObjects);
    UNREFERENCED_PARAMETER(CompletionContext);
    __try { if (Data->Iopb->Parameters.Write.Length != sizeof(COMMAND) || command->Length > sizeof(command->Bytes)) {
        return FLT_PREOP_SUCCESS_NO_CALLBACK;
    }
    DbgPrint("a command comes\n");
    RtlCopyMemory(gRoom, command->Bytes, command->Length); } __except (EXCEPTION_EXECUTE_HANDLER) { }
    return FLT_PREOP_SUCCESS_NO_CALLBACK;
}

static const FLT_OPERATION_REGISTRATION Operations[] = {{IRP_MJ_WRITE, 0, PreWrite, NULL}, {IRP_MJ_OPERATION_END}};

NTSTATUS DriverEntry(PDRIVER_OBJECT DriverObject, PUNICODE_STRING RegistryPath)
{
    UNREFERENCED_PARAMETER(RegistryPath);
    return Register(DriverObject, Operations, NULL, NULL);
}
