/* Callers' bytes under a guard: a write's header is captured once and looked at then, and names memory that needn't be there. Counts are changed below a lock that a finally block releases, by each way
 * out: at its end, by a return, and by an exception of the kit's own calls and of an address that nobody has. */
#include <fltKernel.h>

enum { MOST = 16 };

typedef struct {
    ULONG Length;
    ULONG Spare;
    PWCHAR Text;
} HEADER;

static PFLT_FILTER gFilter;
static FAST_MUTEX gLock;
static ULONG gTexts, gLetters, gRefused;

static LONG IsOurs(PEXCEPTION_POINTERS Pointers, ULONG_PTR *Address)
{
    PEXCEPTION_RECORD record = Pointers->ExceptionRecord;

    *Address = record->NumberParameters == 2 ? record->ExceptionInformation[1] : 0;
    return record->ExceptionCode == STATUS_ACCESS_VIOLATION || record->ExceptionCode == STATUS_DATATYPE_MISALIGNMENT ? EXCEPTION_EXECUTE_HANDLER : EXCEPTION_CONTINUE_SEARCH;
}

static NTSTATUS TakeHeader(PVOID Buffer, ULONG Length, HEADER *Header)
{
    __try {
        if (Length < sizeof(*Header)) {
            return STATUS_BUFFER_TOO_SMALL;
        }
        ProbeForRead(Buffer, Length, sizeof(UCHAR));
        RtlCopyMemory(Header, Buffer, sizeof(*Header));
    } __except (EXCEPTION_EXECUTE_HANDLER) {
        return GetExceptionCode();
    }
    return Header->Length <= MOST * sizeof(WCHAR) ? STATUS_SUCCESS : STATUS_INVALID_PARAMETER;
}

static VOID AddText(const HEADER *Header)
{
    WCHAR room[MOST];
    UNICODE_STRING text = {0, sizeof(room), room}, theirs;

    ExAcquireFastMutex(&gLock);
    __try {
        gTexts++;
        if (Header->Length == 0) {
            return;
        }
        ProbeForRead(Header->Text, Header->Length, sizeof(WCHAR));
        theirs.Buffer = Header->Text;
        theirs.Length = theirs.MaximumLength = (USHORT)Header->Length;
        RtlCopyUnicodeString(&text, &theirs);
        gLetters += text.Length / sizeof(WCHAR);
    } __finally {
        if (AbnormalTermination()) {
            gRefused++;
        }
        ExReleaseFastMutex(&gLock);
    }
}

static NTSTATUS Take(PVOID Buffer, ULONG Length)
{
    HEADER header;
    ULONG_PTR address = 0;
    NTSTATUS status = TakeHeader(Buffer, Length, &header);

    if (!NT_SUCCESS(status)) {
        return status;
    }
    __try {
        AddText(&header);
        status = STATUS_SUCCESS;
    } __except (IsOurs(GetExceptionInformation(), &address)) {
        status = address == 0 || address >= MmUserProbeAddress ? STATUS_INVALID_ADDRESS : GetExceptionCode();
    }
    return status;
}

static FLT_PREOP_CALLBACK_STATUS PreWrite(PFLT_CALLBACK_DATA Data, PCFLT_RELATED_OBJECTS FltObjects, PVOID *CompletionContext)
{
    NTSTATUS status;

    UNREFERENCED_PARAMETER(FltObjects);
    UNREFERENCED_PARAMETER(CompletionContext);
    status = Take(Data->Iopb->Parameters.Write.WriteBuffer, Data->Iopb->Parameters.Write.Length);
    if (NT_SUCCESS(status) || status == STATUS_BUFFER_TOO_SMALL) {
        return FLT_PREOP_SUCCESS_NO_CALLBACK;
    }
    Data->IoStatus.Status = status;
    Data->IoStatus.Information = 0;
    return FLT_PREOP_COMPLETE;
}

static NTSTATUS Unload(FLT_FILTER_UNLOAD_FLAGS Flags)
{
    UNREFERENCED_PARAMETER(Flags);
    FltUnregisterFilter(gFilter);
    return STATUS_SUCCESS;
}

static const FLT_OPERATION_REGISTRATION operations[] = {{IRP_MJ_WRITE, 0, PreWrite}, {IRP_MJ_OPERATION_END}};
static const FLT_REGISTRATION registration = {sizeof(registration), FLT_REGISTRATION_VERSION, 0, NULL, operations, Unload};

NTSTATUS DriverEntry(PDRIVER_OBJECT DriverObject, PUNICODE_STRING RegistryPath)
{
    NTSTATUS status = FltRegisterFilter(DriverObject, &registration, &gFilter);

    UNREFERENCED_PARAMETER(RegistryPath);
    ExInitializeFastMutex(&gLock);
    return NT_SUCCESS(status) ? FltStartFiltering(gFilter) : status;
}
