/* A write's bytes are a command with its own length: it is captured under a guard, and the copy is looked at and used; so is an answer of the file system, by the MDL of its buffer. Of the caller's own buffer only what may
 * be anything is read again. Nothing of it is told, whatever the program changes meanwhile. */
#include <fltKernel.h>

typedef struct _COMMAND {
    ULONG Length;
    UCHAR Bytes[8];
} COMMAND, *PCOMMAND;

static PFLT_FILTER gFilter;
static LONG gSum, gMarked;

static FLT_PREOP_CALLBACK_STATUS PreWrite(PFLT_CALLBACK_DATA Data, PCFLT_RELATED_OBJECTS FltObjects, PVOID *CompletionContext)
{
    PUCHAR bytes = Data->Iopb->Parameters.Write.WriteBuffer;
    UCHAR copy[8];
    COMMAND command;

    UNREFERENCED_PARAMETER(FltObjects);
    UNREFERENCED_PARAMETER(CompletionContext);
    if (Data->Iopb->Parameters.Write.Length < sizeof(COMMAND)) {
        return FLT_PREOP_SUCCESS_NO_CALLBACK;
    }
    __try {
        if (bytes[0] == 4) {
            InterlockedIncrement(&gMarked);
        }
        RtlCopyMemory(&command, bytes, sizeof(COMMAND));
    } __except (EXCEPTION_EXECUTE_HANDLER) {
        return FLT_PREOP_SUCCESS_NO_CALLBACK;
    }
    if (command.Length > sizeof(copy)) {
        return FLT_PREOP_SUCCESS_NO_CALLBACK;
    }
    RtlZeroMemory(copy, sizeof(copy));
    RtlCopyMemory(copy, command.Bytes, command.Length);
    InterlockedExchangeAdd(&gSum, copy[0]);
    return FLT_PREOP_SUCCESS_NO_CALLBACK;
}

static FLT_PREOP_CALLBACK_STATUS PreRead(PFLT_CALLBACK_DATA Data, PCFLT_RELATED_OBJECTS FltObjects, PVOID *CompletionContext)
{
    UNREFERENCED_PARAMETER(FltObjects);
    UNREFERENCED_PARAMETER(CompletionContext);
    return NT_SUCCESS(FltLockUserBuffer(Data)) ? FLT_PREOP_SUCCESS_WITH_CALLBACK : FLT_PREOP_SUCCESS_NO_CALLBACK;
}

/* At DISPATCH_LEVEL. */
static FLT_POSTOP_CALLBACK_STATUS PostRead(PFLT_CALLBACK_DATA Data, PCFLT_RELATED_OBJECTS FltObjects, PVOID CompletionContext, FLT_POST_OPERATION_FLAGS Flags)
{
    PUCHAR bytes;
    COMMAND command;

    UNREFERENCED_PARAMETER(FltObjects);
    UNREFERENCED_PARAMETER(CompletionContext);
    if (FlagOn(Flags, FLTFL_POST_OPERATION_DRAINING) || Data->IoStatus.Information < sizeof(COMMAND) || Data->Iopb->Parameters.Read.MdlAddress == NULL) {
        return FLT_POSTOP_FINISHED_PROCESSING;
    }
    bytes = MmGetSystemAddressForMdlSafe(Data->Iopb->Parameters.Read.MdlAddress, NormalPagePriority);
    if (bytes == NULL) {
        return FLT_POSTOP_FINISHED_PROCESSING;
    }
    RtlCopyMemory(&command, bytes, sizeof(COMMAND));
    if (command.Length <= sizeof(command.Bytes)) {
        InterlockedExchangeAdd(&gSum, command.Bytes[command.Length == 0 ? 0 : command.Length - 1]);
    }
    return FLT_POSTOP_FINISHED_PROCESSING;
}

static NTSTATUS Unload(FLT_FILTER_UNLOAD_FLAGS Flags)
{
    UNREFERENCED_PARAMETER(Flags);
    FltUnregisterFilter(gFilter);
    return STATUS_SUCCESS;
}

static CONST FLT_OPERATION_REGISTRATION Callbacks[] = {{IRP_MJ_WRITE, 0, PreWrite}, {IRP_MJ_READ, 0, PreRead, PostRead}, {IRP_MJ_OPERATION_END}};
static CONST FLT_REGISTRATION Registration = {sizeof(FLT_REGISTRATION), FLT_REGISTRATION_VERSION, 0, NULL, Callbacks, Unload};

NTSTATUS DriverEntry(PDRIVER_OBJECT DriverObject, PUNICODE_STRING RegistryPath)
{
    NTSTATUS status;

    UNREFERENCED_PARAMETER(RegistryPath);
    status = FltRegisterFilter(DriverObject, &Registration, &gFilter);
    if (NT_SUCCESS(status)) {
        status = FltStartFiltering(gFilter);
        if (!NT_SUCCESS(status)) {
            FltUnregisterFilter(gFilter);
        }
    }
    return status;
}
