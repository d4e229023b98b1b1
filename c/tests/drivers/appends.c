/* Says where each write is, on both ways, and begins at the file's begin what begins with an x. Its own log is written at the end, at the position, and where no file has a place. */
#include <fltKernel.h>

static PFLT_FILTER filter;

static BOOLEAN BeginsWithX(const CHAR *Bytes)
{
    BOOLEAN is = FALSE;

    try {
        is = *Bytes == 'x';
    } except (EXCEPTION_EXECUTE_HANDLER) {
        DbgPrint("Appends: the bytes are gone\n");
    }
    return is;
}

static FLT_PREOP_CALLBACK_STATUS PreWrite(PFLT_CALLBACK_DATA Data, PCFLT_RELATED_OBJECTS FltObjects, PVOID *CompletionContext)
{
    PFLT_PARAMETERS parameters = &Data->Iopb->Parameters;
    UNREFERENCED_PARAMETER(FltObjects);
    UNREFERENCED_PARAMETER(CompletionContext);
    DbgPrint("Appends: write at %lld\n", parameters->Write.ByteOffset.QuadPart);
    if (parameters->Write.Length && BeginsWithX(parameters->Write.WriteBuffer)) {
        parameters->Write.ByteOffset.QuadPart = 0;
        FltSetCallbackDataDirty(Data);
    }
    return FLT_PREOP_SYNCHRONIZE;
}

static FLT_POSTOP_CALLBACK_STATUS PostWrite(PFLT_CALLBACK_DATA Data, PCFLT_RELATED_OBJECTS FltObjects, PVOID CompletionContext, FLT_POST_OPERATION_FLAGS Flags)
{
    UNREFERENCED_PARAMETER(FltObjects);
    UNREFERENCED_PARAMETER(CompletionContext);
    UNREFERENCED_PARAMETER(Flags);
    DbgPrint("Appends: written at %lld\n", Data->Iopb->Parameters.Write.ByteOffset.QuadPart);
    return FLT_POSTOP_FINISHED_PROCESSING;
}

static NTSTATUS Unload(FLT_FILTER_UNLOAD_FLAGS Flags)
{
    UNREFERENCED_PARAMETER(Flags);
    FltUnregisterFilter(filter);
    return STATUS_SUCCESS;
}

static VOID Log(HANDLE File, LONG High, ULONG Low, PCSTR Text)
{
    LARGE_INTEGER offset;
    IO_STATUS_BLOCK done;
    FILE_STANDARD_INFORMATION standard = {0};
    FILE_POSITION_INFORMATION position = {0};
    offset.HighPart = High;
    offset.LowPart = Low;
    NTSTATUS status = ZwWriteFile(File, NULL, NULL, NULL, &done, (PVOID)Text, (ULONG)strlen(Text), &offset, NULL);
    ZwQueryInformationFile(File, &done, &standard, sizeof standard, FileStandardInformation);
    ZwQueryInformationFile(File, &done, &position, sizeof position, FilePositionInformation);
    DbgPrint("Appends: %s: %08x, size %lld, position %lld\n", Text, status, standard.EndOfFile.QuadPart, position.CurrentByteOffset.QuadPart);
}

static NTSTATUS WriteLog(ACCESS_MASK Access)
{
    UNICODE_STRING name = RTL_CONSTANT_STRING(L"\\??\\C:\\log");
    OBJECT_ATTRIBUTES attributes;
    IO_STATUS_BLOCK done;
    HANDLE file;
    InitializeObjectAttributes(&attributes, &name, OBJ_KERNEL_HANDLE | OBJ_CASE_INSENSITIVE, NULL, NULL);
    NTSTATUS status = ZwCreateFile(&file, Access | SYNCHRONIZE, &attributes, &done, NULL, 0, FILE_SHARE_READ | FILE_SHARE_WRITE, FILE_OPEN_IF, FILE_SYNCHRONOUS_IO_NONALERT, NULL, 0);
    if (!NT_SUCCESS(status))
        return status;
    Log(file, 0, 2, "ab");
    Log(file, -1, FILE_WRITE_TO_END_OF_FILE, "cd");
    Log(file, -1, FILE_USE_FILE_POINTER_POSITION, "e");
    if (Access & FILE_WRITE_DATA)
        Log(file, -1, 0xfffffffb, "f");
    ZwClose(file);
    return STATUS_SUCCESS;
}

static const FLT_OPERATION_REGISTRATION operations[] = {{IRP_MJ_WRITE, 0, PreWrite, PostWrite, NULL}, {IRP_MJ_OPERATION_END, 0, NULL, NULL, NULL}};
static const FLT_REGISTRATION registration = {.Size = sizeof registration, .Version = FLT_REGISTRATION_VERSION, .OperationRegistration = operations, .FilterUnloadCallback = Unload};

NTSTATUS DriverEntry(PDRIVER_OBJECT DriverObject, PUNICODE_STRING RegistryPath)
{
    UNREFERENCED_PARAMETER(RegistryPath);
    NTSTATUS status = FltRegisterFilter(DriverObject, &registration, &filter);
    if (NT_SUCCESS(status))
        status = WriteLog(FILE_GENERIC_READ | FILE_GENERIC_WRITE);
    if (NT_SUCCESS(status))
        status = WriteLog(FILE_READ_DATA | FILE_READ_ATTRIBUTES | FILE_APPEND_DATA);
    return NT_SUCCESS(status) ? FltStartFiltering(filter) : status;
}
