/* A filter that makes operations up in callback data of its own: a flush has the file read, cut and asked by it; a write of one byte begins a read that it doesn't wait for, which a size's
 * query cancels; and a read past the end is sent down again from the beginning. */
#include <fltKernel.h>

PFLT_FILTER gFilter;
static PFLT_CALLBACK_DATA gLater;
static CHAR gRoom[16];

static VOID Done(PFLT_CALLBACK_DATA CallbackData, PFLT_CONTEXT Context)
{
    DbgPrint("MadeUp: done %s: 0x%08x, %u bytes \"%.4s\", IRQL %u\n", (PCSTR)Context, CallbackData->IoStatus.Status, (ULONG)CallbackData->IoStatus.Information, gRoom,
             KeGetCurrentIrql());
}

static VOID Read(PFLT_CALLBACK_DATA Made, LONGLONG Offset)
{
    Made->Iopb->MajorFunction = IRP_MJ_READ;
    Made->Iopb->Parameters.Read.Length = 4;
    Made->Iopb->Parameters.Read.ByteOffset.QuadPart = Offset;
    Made->Iopb->Parameters.Read.ReadBuffer = gRoom;
}

static FLT_PREOP_CALLBACK_STATUS PreFlush(PFLT_CALLBACK_DATA Data, PCFLT_RELATED_OBJECTS FltObjects, PVOID *Context)
{
    PFLT_CALLBACK_DATA made;
    FILE_STANDARD_INFORMATION standard;
    FILE_END_OF_FILE_INFORMATION end = {.EndOfFile.QuadPart = 6};

    UNREFERENCED_PARAMETER(Data);
    UNREFERENCED_PARAMETER(Context);
    if (!NT_SUCCESS(FltAllocateCallbackData(FltObjects->Instance, FltObjects->FileObject, &made)))
        return FLT_PREOP_SUCCESS_NO_CALLBACK;
    Read(made, 2);
    FltPerformSynchronousIo(made);
    DbgPrint("MadeUp: read 0x%08x, %u bytes \"%.4s\"\n", made->IoStatus.Status, (ULONG)made->IoStatus.Information, gRoom);
    FltReuseCallbackData(made);
    made->Iopb->MajorFunction = IRP_MJ_SET_INFORMATION;
    made->Iopb->Parameters.SetFileInformation.FileInformationClass = FileEndOfFileInformation;
    made->Iopb->Parameters.SetFileInformation.InfoBuffer = &end;
    made->Iopb->Parameters.SetFileInformation.Length = sizeof(end);
    FltPerformSynchronousIo(made);
    FltReuseCallbackData(made);
    made->Iopb->MajorFunction = IRP_MJ_QUERY_INFORMATION;
    made->Iopb->Parameters.QueryFileInformation.FileInformationClass = FileStandardInformation;
    made->Iopb->Parameters.QueryFileInformation.InfoBuffer = &standard;
    made->Iopb->Parameters.QueryFileInformation.Length = sizeof(standard);
    FltPerformSynchronousIo(made);
    DbgPrint("MadeUp: size 0x%08x, %u bytes, %I64d\n", made->IoStatus.Status, (ULONG)made->IoStatus.Information, standard.EndOfFile.QuadPart);
    FltFreeCallbackData(made);
    return FLT_PREOP_SUCCESS_NO_CALLBACK;
}

static FLT_PREOP_CALLBACK_STATUS PreWrite(PFLT_CALLBACK_DATA Data, PCFLT_RELATED_OBJECTS FltObjects, PVOID *Context)
{
    UNREFERENCED_PARAMETER(Context);
    if (Data->Iopb->Parameters.Write.Length != 1 || gLater != NULL || !NT_SUCCESS(FltAllocateCallbackData(FltObjects->Instance, FltObjects->FileObject, &gLater)))
        return FLT_PREOP_SUCCESS_NO_CALLBACK;
    Read(gLater, 0);
    DbgPrint("MadeUp: begun, 0x%08x\n", FltPerformAsynchronousIo(gLater, Done, "later"));
    return FLT_PREOP_SUCCESS_NO_CALLBACK;
}

static FLT_PREOP_CALLBACK_STATUS PreQuery(PFLT_CALLBACK_DATA Data, PCFLT_RELATED_OBJECTS FltObjects, PVOID *Context)
{
    UNREFERENCED_PARAMETER(Data);
    UNREFERENCED_PARAMETER(FltObjects);
    UNREFERENCED_PARAMETER(Context);
    if (gLater != NULL)
        DbgPrint("MadeUp: cancelling answers %u\n", FltCancelIo(gLater));
    return FLT_PREOP_SUCCESS_NO_CALLBACK;
}

static FLT_PREOP_CALLBACK_STATUS PreCleanup(PFLT_CALLBACK_DATA Data, PCFLT_RELATED_OBJECTS FltObjects, PVOID *Context)
{
    UNREFERENCED_PARAMETER(Data);
    UNREFERENCED_PARAMETER(FltObjects);
    UNREFERENCED_PARAMETER(Context);
    if (gLater != NULL)
        FltFreeCallbackData(gLater);
    gLater = NULL;
    return FLT_PREOP_SUCCESS_NO_CALLBACK;
}

/* What is past the end is read from the beginning. */
static FLT_PREOP_CALLBACK_STATUS PreRead(PFLT_CALLBACK_DATA Data, PCFLT_RELATED_OBJECTS FltObjects, PVOID *Context)
{
    UNREFERENCED_PARAMETER(Data);
    UNREFERENCED_PARAMETER(FltObjects);
    UNREFERENCED_PARAMETER(Context);
    return FLT_PREOP_SYNCHRONIZE;
}

static FLT_POSTOP_CALLBACK_STATUS PostRead(PFLT_CALLBACK_DATA Data, PCFLT_RELATED_OBJECTS FltObjects, PVOID Context, FLT_POST_OPERATION_FLAGS Flags)
{
    UNREFERENCED_PARAMETER(Context);
    if (!(Flags & FLTFL_POST_OPERATION_DRAINING) && Data->IoStatus.Status == STATUS_END_OF_FILE) {
        LONGLONG before = Data->Iopb->Parameters.Read.ByteOffset.QuadPart;
        Data->Iopb->Parameters.Read.ByteOffset.QuadPart = 0;
        FltSetCallbackDataDirty(Data);
        FltReissueSynchronousIo(FltObjects->Instance, Data);
        Data->Iopb->Parameters.Read.ByteOffset.QuadPart = before;
        FltClearCallbackDataDirty(Data);
    }
    return FLT_POSTOP_FINISHED_PROCESSING;
}

static NTSTATUS Unload(FLT_FILTER_UNLOAD_FLAGS Flags)
{
    UNREFERENCED_PARAMETER(Flags);
    FltUnregisterFilter(gFilter);
    return STATUS_SUCCESS;
}

static CONST FLT_OPERATION_REGISTRATION Operations[] = {
    {IRP_MJ_READ, 0, PreRead, PostRead},
    {IRP_MJ_WRITE, 0, PreWrite, NULL},
    {IRP_MJ_FLUSH_BUFFERS, 0, PreFlush, NULL},
    {IRP_MJ_QUERY_INFORMATION, 0, PreQuery, NULL},
    {IRP_MJ_CLEANUP, 0, PreCleanup, NULL},
    {IRP_MJ_OPERATION_END},
};

static CONST FLT_REGISTRATION Registration = {
    .Size = sizeof(FLT_REGISTRATION), .Version = FLT_REGISTRATION_VERSION, .OperationRegistration = Operations, .FilterUnloadCallback = Unload};

NTSTATUS DriverEntry(PDRIVER_OBJECT DriverObject, PUNICODE_STRING RegistryPath)
{
    UNREFERENCED_PARAMETER(RegistryPath);
    gLater = NULL;
    NTSTATUS status = FltRegisterFilter(DriverObject, &Registration, &gFilter);
    return NT_SUCCESS(status) ? FltStartFiltering(gFilter) : status;
}
