/* What it gives away it has written, all of it: the pool that it says, the answer, and what it decides by. */
#include <fltKernel.h>

#define UNWRITTEN_TAG 'rwnU'

static PFLT_FILTER gFilter;

typedef struct _NOTE {
    ULONG Written, Unwritten;
} NOTE, *PNOTE;

static FLT_PREOP_CALLBACK_STATUS PreFlush(PFLT_CALLBACK_DATA Data, PCFLT_RELATED_OBJECTS FltObjects, PVOID *CompletionContext)
{
    PNOTE note = ExAllocatePoolWithTag(NonPagedPool, sizeof(NOTE), UNWRITTEN_TAG);

    UNREFERENCED_PARAMETER(Data);
    UNREFERENCED_PARAMETER(FltObjects);
    UNREFERENCED_PARAMETER(CompletionContext);
    if (note != NULL) {
        note->Written = note->Unwritten = 1;
        DbgPrint("note %u %u\n", note->Written, note->Unwritten);
        ExFreePoolWithTag(note, UNWRITTEN_TAG);
    }
    return FLT_PREOP_SUCCESS_NO_CALLBACK;
}

static FLT_PREOP_CALLBACK_STATUS PreRead(PFLT_CALLBACK_DATA Data, PCFLT_RELATED_OBJECTS FltObjects, PVOID *CompletionContext)
{
    UNREFERENCED_PARAMETER(FltObjects);
    UNREFERENCED_PARAMETER(CompletionContext);
    if (Data->Iopb->Parameters.Read.Length < 4) {
        return FLT_PREOP_SUCCESS_NO_CALLBACK;
    }
    __try {
        RtlFillMemory(Data->Iopb->Parameters.Read.ReadBuffer, 4, 'x');
        Data->IoStatus.Status = STATUS_SUCCESS;
    } __except (EXCEPTION_EXECUTE_HANDLER) {
        Data->IoStatus.Status = GetExceptionCode();
    }
    Data->IoStatus.Information = 4;
    return FLT_PREOP_COMPLETE;
}

static FLT_PREOP_CALLBACK_STATUS PreWrite(PFLT_CALLBACK_DATA Data, PCFLT_RELATED_OBJECTS FltObjects, PVOID *CompletionContext)
{
    PNOTE note = ExAllocatePoolZero(NonPagedPool, sizeof(NOTE), UNWRITTEN_TAG);
    BOOLEAN isDenied = note != NULL && (note->Unwritten & 1) != 0;

    UNREFERENCED_PARAMETER(FltObjects);
    UNREFERENCED_PARAMETER(CompletionContext);
    if (note != NULL) {
        ExFreePoolWithTag(note, UNWRITTEN_TAG);
    }
    if (!isDenied) {
        return FLT_PREOP_SUCCESS_NO_CALLBACK;
    }
    Data->IoStatus.Status = STATUS_ACCESS_DENIED;
    Data->IoStatus.Information = 0;
    return FLT_PREOP_COMPLETE;
}

static CONST FLT_OPERATION_REGISTRATION Callbacks[] = {{IRP_MJ_FLUSH_BUFFERS, 0, PreFlush}, {IRP_MJ_READ, 0, PreRead}, {IRP_MJ_WRITE, 0, PreWrite}, {IRP_MJ_OPERATION_END}};
static CONST FLT_REGISTRATION Registration = {sizeof(FLT_REGISTRATION), FLT_REGISTRATION_VERSION, 0, NULL, Callbacks};

NTSTATUS DriverEntry(PDRIVER_OBJECT DriverObject, PUNICODE_STRING RegistryPath)
{
    NTSTATUS status;

    UNREFERENCED_PARAMETER(RegistryPath);
    status = FltRegisterFilter(DriverObject, &Registration, &gFilter);
    return NT_SUCCESS(status) ? FltStartFiltering(gFilter) : status;
}
