/* It gives away memory that nobody wrote: in what it says, in an answer, between the fields of a structure, behind the bytes of an answer; and it takes a decision from a pool, and from a structure that
 * a call which failed left alone. --fill finds that. */
#include <fltKernel.h>

#define UNWRITTEN_TAG 'rwnU'

static PFLT_FILTER gFilter;

typedef struct _NOTE {
    ULONG Written, Unwritten;
} NOTE, *PNOTE;

/* The kind has three bytes behind it that are nobody's. */
typedef struct _PADDED {
    UCHAR Kind;
    ULONG Count;
} PADDED;

/* Nothing is asked of a call's status. */
static BOOLEAN IsLarge(PCFLT_RELATED_OBJECTS FltObjects)
{
    FILE_STANDARD_INFORMATION standard;

    FltQueryInformationFile(FltObjects->Instance, FltObjects->FileObject, &standard, sizeof(ULONG), FileStandardInformation, NULL);
    return standard.NumberOfLinks > 100;
}

static FLT_PREOP_CALLBACK_STATUS PreSetInformation(PFLT_CALLBACK_DATA Data, PCFLT_RELATED_OBJECTS FltObjects, PVOID *CompletionContext)
{
    UNREFERENCED_PARAMETER(CompletionContext);
    if (!IsLarge(FltObjects)) {
        return FLT_PREOP_SUCCESS_NO_CALLBACK;
    }
    Data->IoStatus.Status = STATUS_DISK_FULL;
    return FLT_PREOP_COMPLETE;
}

static NTSTATUS GiveBytes(PVOID To, const VOID *From, SIZE_T Length)
{
    __try {
        RtlCopyMemory(To, From, Length);
    } __except (EXCEPTION_EXECUTE_HANDLER) {
        return GetExceptionCode();
    }
    return STATUS_SUCCESS;
}

static FLT_PREOP_CALLBACK_STATUS GivePadded(PFLT_CALLBACK_DATA Data)
{
    PADDED padded;

    padded.Kind = 1;
    padded.Count = 2;
    Data->IoStatus.Status = GiveBytes(Data->Iopb->Parameters.Read.ReadBuffer, &padded, sizeof(padded));
    Data->IoStatus.Information = sizeof(padded);
    return FLT_PREOP_COMPLETE;
}

static FLT_PREOP_CALLBACK_STATUS Swap(PFLT_CALLBACK_DATA Data, PVOID *CompletionContext)
{
    PVOID room = ExAllocatePoolWithTag(NonPagedPool, Data->Iopb->Parameters.Read.Length, UNWRITTEN_TAG);

    if (room == NULL) {
        return FLT_PREOP_SUCCESS_NO_CALLBACK;
    }
    Data->Iopb->Parameters.Read.ReadBuffer = room;
    FltSetCallbackDataDirty(Data);
    *CompletionContext = room;
    return FLT_PREOP_SYNCHRONIZE;
}

/* As many bytes as were asked for, and not as were read. */
static FLT_POSTOP_CALLBACK_STATUS PostRead(PFLT_CALLBACK_DATA Data, PCFLT_RELATED_OBJECTS FltObjects, PVOID CompletionContext, FLT_POST_OPERATION_FLAGS Flags)
{
    UNREFERENCED_PARAMETER(FltObjects);
    UNREFERENCED_PARAMETER(Flags);
    GiveBytes(Data->Iopb->Parameters.Read.ReadBuffer, CompletionContext, Data->Iopb->Parameters.Read.Length);
    ExFreePoolWithTag(CompletionContext, UNWRITTEN_TAG);
    return FLT_POSTOP_FINISHED_PROCESSING;
}

static FLT_PREOP_CALLBACK_STATUS PreFlush(PFLT_CALLBACK_DATA Data, PCFLT_RELATED_OBJECTS FltObjects, PVOID *CompletionContext)
{
    PNOTE note = ExAllocatePoolWithTag(NonPagedPool, sizeof(NOTE), UNWRITTEN_TAG);

    UNREFERENCED_PARAMETER(Data);
    UNREFERENCED_PARAMETER(FltObjects);
    UNREFERENCED_PARAMETER(CompletionContext);
    if (note != NULL) {
        note->Written = 1;
        DbgPrint("note %u %u\n", note->Written, note->Unwritten);
        ExFreePoolWithTag(note, UNWRITTEN_TAG);
    }
    return FLT_PREOP_SUCCESS_NO_CALLBACK;
}

/* Four bytes are said to be there, and two are. */
static FLT_PREOP_CALLBACK_STATUS PreRead(PFLT_CALLBACK_DATA Data, PCFLT_RELATED_OBJECTS FltObjects, PVOID *CompletionContext)
{
    UNREFERENCED_PARAMETER(FltObjects);
    switch (Data->Iopb->Parameters.Read.Length) {
    case 4:
        break;
    case 8:
        return GivePadded(Data);
    case 16:
        return Swap(Data, CompletionContext);
    default:
        return FLT_PREOP_SUCCESS_NO_CALLBACK;
    }
    Data->IoStatus.Status = GiveBytes(Data->Iopb->Parameters.Read.ReadBuffer, "xx", 2);
    Data->IoStatus.Information = 4;
    return FLT_PREOP_COMPLETE;
}

/* A write is denied or not as it comes. */
static FLT_PREOP_CALLBACK_STATUS PreWrite(PFLT_CALLBACK_DATA Data, PCFLT_RELATED_OBJECTS FltObjects, PVOID *CompletionContext)
{
    PNOTE note = ExAllocatePoolWithTag(NonPagedPool, sizeof(NOTE), UNWRITTEN_TAG);
    BOOLEAN isDenied = note != NULL && (note->Unwritten & 1) != 0;

    UNREFERENCED_PARAMETER(FltObjects);
    UNREFERENCED_PARAMETER(CompletionContext);
    if (note != NULL) {
        ExFreePoolWithTag(note, UNWRITTEN_TAG);
    }
    if (!isDenied) {
        return FLT_PREOP_SUCCESS_NO_CALLBACK;
    }
    Data->IoStatus.Status = STATUS_ACCESS_DENIED;
    Data->IoStatus.Information = 0;
    return FLT_PREOP_COMPLETE;
}

static CONST FLT_OPERATION_REGISTRATION Callbacks[] = {{IRP_MJ_FLUSH_BUFFERS, 0, PreFlush},
                                                         {IRP_MJ_READ, 0, PreRead, PostRead},
                                                         {IRP_MJ_WRITE, 0, PreWrite},
                                                         {IRP_MJ_SET_INFORMATION, 0, PreSetInformation},
                                                         {IRP_MJ_OPERATION_END}};
static CONST FLT_REGISTRATION Registration = {sizeof(FLT_REGISTRATION), FLT_REGISTRATION_VERSION, 0, NULL, Callbacks};

NTSTATUS DriverEntry(PDRIVER_OBJECT DriverObject, PUNICODE_STRING RegistryPath)
{
    NTSTATUS status;

    UNREFERENCED_PARAMETER(RegistryPath);
    status = FltRegisterFilter(DriverObject, &Registration, &gFilter);
    return NT_SUCCESS(status) ? FltStartFiltering(gFilter) : status;
}
