/* Each byte that goes to a program was written: a structure is zeroed before its fields are, an answer is copied as far as it was read, and what a call that failed has left isn't looked at. A room that is
 * larger than what is said of it stays as it is. */
#include <fltKernel.h>

#define FILLS_TAG 'lliF'

typedef struct _PADDED {
    UCHAR Kind;
    ULONG Count;
} PADDED;

static PFLT_FILTER gFilter;

static NTSTATUS GiveBytes(PVOID To, const VOID *From, SIZE_T Length)
{
    __try {
        RtlCopyMemory(To, From, Length);
    } __except (EXCEPTION_EXECUTE_HANDLER) {
        return GetExceptionCode();
    }
    return STATUS_SUCCESS;
}

static BOOLEAN HasManyLinks(PCFLT_RELATED_OBJECTS FltObjects)
{
    FILE_STANDARD_INFORMATION standard;

    return NT_SUCCESS(FltQueryInformationFile(FltObjects->Instance, FltObjects->FileObject, &standard, sizeof(standard), FileStandardInformation, NULL)) && standard.NumberOfLinks > 100;
}

static FLT_PREOP_CALLBACK_STATUS PreFlush(PFLT_CALLBACK_DATA Data, PCFLT_RELATED_OBJECTS FltObjects, PVOID *CompletionContext)
{
    UNREFERENCED_PARAMETER(CompletionContext);
    if (!HasManyLinks(FltObjects)) {
        return FLT_PREOP_SUCCESS_NO_CALLBACK;
    }
    Data->IoStatus.Status = STATUS_DISK_FULL;
    return FLT_PREOP_COMPLETE;
}

static FLT_PREOP_CALLBACK_STATUS GivePadded(PFLT_CALLBACK_DATA Data)
{
    PADDED padded;

    RtlZeroMemory(&padded, sizeof(padded));
    padded.Kind = 1;
    padded.Count = 2;
    Data->IoStatus.Status = GiveBytes(Data->Iopb->Parameters.Read.ReadBuffer, &padded, sizeof(padded));
    Data->IoStatus.Information = NT_SUCCESS(Data->IoStatus.Status) ? sizeof(padded) : 0;
    return FLT_PREOP_COMPLETE;
}

static FLT_PREOP_CALLBACK_STATUS PreRead(PFLT_CALLBACK_DATA Data, PCFLT_RELATED_OBJECTS FltObjects, PVOID *CompletionContext)
{
    PVOID room;

    UNREFERENCED_PARAMETER(FltObjects);
    if (Data->RequestorMode == KernelMode || Data->Iopb->Parameters.Read.Length < sizeof(PADDED)) {
        return FLT_PREOP_SUCCESS_NO_CALLBACK;
    }
    if (Data->Iopb->Parameters.Read.ByteOffset.QuadPart == 64) {
        return GivePadded(Data);
    }
    room = ExAllocatePoolWithTag(NonPagedPool, Data->Iopb->Parameters.Read.Length, FILLS_TAG);
    if (room == NULL) {
        return FLT_PREOP_SUCCESS_NO_CALLBACK;
    }
    Data->Iopb->Parameters.Read.ReadBuffer = room;
    Data->Iopb->Parameters.Read.MdlAddress = NULL;
    FltSetCallbackDataDirty(Data);
    *CompletionContext = room;
    return FLT_PREOP_SYNCHRONIZE;
}

static FLT_POSTOP_CALLBACK_STATUS PostRead(PFLT_CALLBACK_DATA Data, PCFLT_RELATED_OBJECTS FltObjects, PVOID CompletionContext, FLT_POST_OPERATION_FLAGS Flags)
{
    UNREFERENCED_PARAMETER(FltObjects);
    if (!FlagOn(Flags, FLTFL_POST_OPERATION_DRAINING) && NT_SUCCESS(Data->IoStatus.Status)) {
        GiveBytes(Data->Iopb->Parameters.Read.ReadBuffer, CompletionContext, Data->IoStatus.Information);
    }
    ExFreePoolWithTag(CompletionContext, FILLS_TAG);
    return FLT_POSTOP_FINISHED_PROCESSING;
}

static NTSTATUS Unload(FLT_FILTER_UNLOAD_FLAGS Flags)
{
    UNREFERENCED_PARAMETER(Flags);
    FltUnregisterFilter(gFilter);
    return STATUS_SUCCESS;
}

static const FLT_OPERATION_REGISTRATION gOperations[] = {{IRP_MJ_READ, 0, PreRead, PostRead}, {IRP_MJ_FLUSH_BUFFERS, 0, PreFlush, NULL}, {IRP_MJ_OPERATION_END}};
static const FLT_REGISTRATION gRegistration = {sizeof(FLT_REGISTRATION), FLT_REGISTRATION_VERSION, 0, NULL, gOperations, Unload};

NTSTATUS DriverEntry(PDRIVER_OBJECT DriverObject, PUNICODE_STRING RegistryPath)
{
    NTSTATUS status = FltRegisterFilter(DriverObject, &gRegistration, &gFilter);

    UNREFERENCED_PARAMETER(RegistryPath);
    if (NT_SUCCESS(status)) {
        status = FltStartFiltering(gFilter);
        if (!NT_SUCCESS(status)) {
            FltUnregisterFilter(gFilter);
        }
    }
    return status;
}
