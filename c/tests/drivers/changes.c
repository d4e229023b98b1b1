/* A driver that changes what is asked and what is answered, in each way that the model has. */
#include <fltKernel.h>

PFLT_FILTER gFilterHandle;

/* A create of a file that is there opens it, whatever was asked. */
static FLT_PREOP_CALLBACK_STATUS PreCreate(PFLT_CALLBACK_DATA Data, PCFLT_RELATED_OBJECTS FltObjects, PVOID *CompletionContext)
{
    UNREFERENCED_PARAMETER(FltObjects);
    UNREFERENCED_PARAMETER(CompletionContext);
    Data->Iopb->Parameters.Create.Options = (ULONG)FILE_OPEN_IF << 24;
    FltSetCallbackDataDirty(Data);
    return FLT_PREOP_SUCCESS_NO_CALLBACK;
}

/* A read from place 100 on is one from 100 bytes before; one of more than 4 bytes is of 4. The sync postoperation hides the first letter. */
static FLT_PREOP_CALLBACK_STATUS PreRead(PFLT_CALLBACK_DATA Data, PCFLT_RELATED_OBJECTS FltObjects, PVOID *CompletionContext)
{
    UNREFERENCED_PARAMETER(FltObjects);
    UNREFERENCED_PARAMETER(CompletionContext);
    if (Data->Iopb->Parameters.Read.ByteOffset.QuadPart >= 100) {
        Data->Iopb->Parameters.Read.ByteOffset.QuadPart -= 100;
    }
    if (Data->Iopb->Parameters.Read.Length > 4) {
        Data->Iopb->Parameters.Read.Length = 4;
    }
    FltSetCallbackDataDirty(Data);
    FLT_ASSERT(FltIsCallbackDataDirty(Data));
    return FLT_PREOP_SYNCHRONIZE;
}

static FLT_POSTOP_CALLBACK_STATUS PostRead(PFLT_CALLBACK_DATA Data, PCFLT_RELATED_OBJECTS FltObjects, PVOID CompletionContext, FLT_POST_OPERATION_FLAGS Flags)
{
    UNREFERENCED_PARAMETER(FltObjects);
    UNREFERENCED_PARAMETER(CompletionContext);
    UNREFERENCED_PARAMETER(Flags);
    /* It sees what it received, not what it changed. */
    DbgPrint("read of %u at %lld answered %llu\n", Data->Iopb->Parameters.Read.Length, Data->Iopb->Parameters.Read.ByteOffset.QuadPart,
             (ULONGLONG)Data->IoStatus.Information);
    if (NT_SUCCESS(Data->IoStatus.Status)) {
        __try {
            *(PUCHAR)Data->Iopb->Parameters.Read.ReadBuffer = '-';
        } __except (EXCEPTION_EXECUTE_HANDLER) {
            Data->IoStatus.Status = GetExceptionCode();
        }
    } else {
        Data->IoStatus.Status = STATUS_ACCESS_DENIED;
    }
    return FLT_POSTOP_FINISHED_PROCESSING;
}

/* What is written goes to place 0, without its last byte. */
static FLT_PREOP_CALLBACK_STATUS PreWrite(PFLT_CALLBACK_DATA Data, PCFLT_RELATED_OBJECTS FltObjects, PVOID *CompletionContext)
{
    UNREFERENCED_PARAMETER(FltObjects);
    UNREFERENCED_PARAMETER(CompletionContext);
    Data->Iopb->Parameters.Write.ByteOffset.QuadPart = 0;
    Data->Iopb->Parameters.Write.Length -= 1;
    FltSetCallbackDataDirty(Data);
    return FLT_PREOP_SUCCESS_WITH_CALLBACK;
}

/* The caller is told what it asked for. */
static FLT_POSTOP_CALLBACK_STATUS PostWrite(PFLT_CALLBACK_DATA Data, PCFLT_RELATED_OBJECTS FltObjects, PVOID CompletionContext, FLT_POST_OPERATION_FLAGS Flags)
{
    UNREFERENCED_PARAMETER(FltObjects);
    UNREFERENCED_PARAMETER(CompletionContext);
    UNREFERENCED_PARAMETER(Flags);
    Data->IoStatus.Information = Data->Iopb->Parameters.Write.Length;
    return FLT_POSTOP_FINISHED_PROCESSING;
}

static FLT_POSTOP_CALLBACK_STATUS PostQuery(PFLT_CALLBACK_DATA Data, PCFLT_RELATED_OBJECTS FltObjects, PVOID CompletionContext, FLT_POST_OPERATION_FLAGS Flags)
{
    PFILE_STANDARD_INFORMATION info = Data->Iopb->Parameters.QueryFileInformation.InfoBuffer;

    UNREFERENCED_PARAMETER(FltObjects);
    UNREFERENCED_PARAMETER(CompletionContext);
    UNREFERENCED_PARAMETER(Flags);
    info->EndOfFile.QuadPart += 1000;
    return FLT_POSTOP_FINISHED_PROCESSING;
}

/* The end of file that is set is doubled. */
static FLT_PREOP_CALLBACK_STATUS PreSet(PFLT_CALLBACK_DATA Data, PCFLT_RELATED_OBJECTS FltObjects, PVOID *CompletionContext)
{
    UNREFERENCED_PARAMETER(FltObjects);
    UNREFERENCED_PARAMETER(CompletionContext);
    if (Data->Iopb->Parameters.SetFileInformation.FileInformationClass == FileEndOfFileInformation) {
        ((PFILE_END_OF_FILE_INFORMATION)Data->Iopb->Parameters.SetFileInformation.InfoBuffer)->EndOfFile.QuadPart *= 2;
        FltSetCallbackDataDirty(Data);
    }
    return FLT_PREOP_SUCCESS_NO_CALLBACK;
}

/* The first name of a listing is hidden. */
static FLT_POSTOP_CALLBACK_STATUS PostList(PFLT_CALLBACK_DATA Data, PCFLT_RELATED_OBJECTS FltObjects, PVOID CompletionContext, FLT_POST_OPERATION_FLAGS Flags)
{
    PUCHAR first = Data->Iopb->Parameters.DirectoryControl.QueryDirectory.DirectoryBuffer;
    ULONG next;

    UNREFERENCED_PARAMETER(FltObjects);
    UNREFERENCED_PARAMETER(CompletionContext);
    UNREFERENCED_PARAMETER(Flags);
    if (!NT_SUCCESS(FltLockUserBuffer(Data))) {
        return FLT_POSTOP_FINISHED_PROCESSING;
    }
    next = ((PFILE_NAMES_INFORMATION)first)->NextEntryOffset;
    if (next == 0) {
        Data->IoStatus.Information = 0;
    } else {
        RtlMoveMemory(first, first + next, Data->IoStatus.Information - next);
    }
    return FLT_POSTOP_FINISHED_PROCESSING;
}

static FLT_POSTOP_CALLBACK_STATUS PostFlush(PFLT_CALLBACK_DATA Data, PCFLT_RELATED_OBJECTS FltObjects, PVOID CompletionContext, FLT_POST_OPERATION_FLAGS Flags)
{
    UNREFERENCED_PARAMETER(FltObjects);
    UNREFERENCED_PARAMETER(CompletionContext);
    UNREFERENCED_PARAMETER(Flags);
    Data->IoStatus.Status = STATUS_IO_DEVICE_ERROR;
    return FLT_POSTOP_FINISHED_PROCESSING;
}

CONST FLT_OPERATION_REGISTRATION Callbacks[] = {{IRP_MJ_CREATE, 0, PreCreate, NULL},
                                                {IRP_MJ_READ, 0, PreRead, PostRead},
                                                {IRP_MJ_WRITE, 0, PreWrite, PostWrite},
                                                {IRP_MJ_QUERY_INFORMATION, 0, NULL, PostQuery},
                                                {IRP_MJ_SET_INFORMATION, 0, PreSet, NULL},
                                                {IRP_MJ_DIRECTORY_CONTROL, 0, NULL, PostList},
                                                {IRP_MJ_FLUSH_BUFFERS, 0, NULL, PostFlush},
                                                {IRP_MJ_OPERATION_END}};
CONST FLT_REGISTRATION Registration = {sizeof(FLT_REGISTRATION), FLT_REGISTRATION_VERSION, 0, NULL, Callbacks, NULL, NULL, NULL, NULL, NULL};

NTSTATUS DriverEntry(PDRIVER_OBJECT DriverObject, PUNICODE_STRING RegistryPath)
{
    NTSTATUS status = FltRegisterFilter(DriverObject, &Registration, &gFilterHandle);

    UNREFERENCED_PARAMETER(RegistryPath);
    return NT_SUCCESS(status) ? FltStartFiltering(gFilterHandle) : status;
}
