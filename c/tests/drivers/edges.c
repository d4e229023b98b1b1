/* Calls at the edge of an IRP: extended attributes by lists and one by one, where the file system is to clear, reparse points that are opened by themselves, and bypass I/O. */
#include <fltKernel.h>

#define TAG_EDGES 0x00000099
static PFLT_FILTER filter;
static OPEN_REPARSE_LIST_ENTRY entry;
static const GUID edges = {0xed6e5, 1, 2, {3, 4, 5, 6, 7, 8, 9, 10}};

/* Names of two attributes: the one that is asked for isn't spelt as it was set, the other one isn't there. */
typedef union {
    FILE_GET_EA_INFORMATION first;
    UCHAR bytes[32];
} WANTED;

static VOID ShowEas(NTSTATUS Status, PFILE_FULL_EA_INFORMATION Ea, ULONG Length)
{
    DbgPrint("0x%08x %lu", Status, Length);
    while (Length) {
        DbgPrint(" %.*s=%u", Ea->EaNameLength, Ea->EaName, Ea->EaValueLength);
        if (!Ea->NextEntryOffset)
            break;
        Ea = (PFILE_FULL_EA_INFORMATION)((PUCHAR)Ea + Ea->NextEntryOffset);
    }
    DbgPrint("\n");
}

static VOID AskEas(PCFLT_RELATED_OBJECTS FltObjects)
{
    static const UCHAR asked[] = {12, 0, 0, 0, 1, 'b', 0, 0, 0, 0, 0, 0, 0, 0, 0, 0, 4, 'N', 'O', 'N', 'E', 0};
    union {
        FILE_FULL_EA_INFORMATION first;
        UCHAR bytes[128];
    } room;
    WANTED wanted;
    ULONG length = 0, index = 2;
    NTSTATUS status;
    RtlCopyMemory(wanted.bytes, asked, sizeof(asked));
    status = FltQueryEaFile(FltObjects->Instance, FltObjects->FileObject, &room, sizeof(room), FALSE, &wanted, sizeof(asked), NULL, TRUE, &length);
    ShowEas(status, &room.first, length);
    status = FltQueryEaFile(FltObjects->Instance, FltObjects->FileObject, &room, sizeof(room), TRUE, NULL, 0, NULL, TRUE, &length);
    ShowEas(status, &room.first, length);
    status = FltQueryEaFile(FltObjects->Instance, FltObjects->FileObject, &room, sizeof(room), FALSE, NULL, 0, NULL, FALSE, &length);
    ShowEas(status, &room.first, length);
    status = FltQueryEaFile(FltObjects->Instance, FltObjects->FileObject, &room, sizeof(room), FALSE, NULL, 0, NULL, FALSE, &length);
    ShowEas(status, &room.first, length);
    status = FltQueryEaFile(FltObjects->Instance, FltObjects->FileObject, &room, sizeof(room), TRUE, NULL, 0, &index, FALSE, &length);
    ShowEas(status, &room.first, length);
    index = 9;
    status = FltQueryEaFile(FltObjects->Instance, FltObjects->FileObject, &room, sizeof(room), TRUE, NULL, 0, &index, FALSE, &length);
    ShowEas(status, &room.first, length);
    status = FltQueryEaFile(FltObjects->Instance, FltObjects->FileObject, &room, 12, FALSE, NULL, 0, NULL, TRUE, &length);
    ShowEas(status, &room.first, length);
    status = FltQueryEaFile(FltObjects->Instance, FltObjects->FileObject, &room, 4, FALSE, NULL, 0, NULL, TRUE, &length);
    ShowEas(status, &room.first, length);
}

static FLT_PREOP_CALLBACK_STATUS PreFlush(PFLT_CALLBACK_DATA Data, PCFLT_RELATED_OBJECTS FltObjects, PVOID *CompletionContext)
{
    UNREFERENCED_PARAMETER(Data);
    UNREFERENCED_PARAMETER(CompletionContext);
    AskEas(FltObjects);
    return FLT_PREOP_SUCCESS_NO_CALLBACK;
}

/* A file called own opens its reparse point by itself. */
static FLT_PREOP_CALLBACK_STATUS PreCreate(PFLT_CALLBACK_DATA Data, PCFLT_RELATED_OBJECTS FltObjects, PVOID *CompletionContext)
{
    PUNICODE_STRING name = &FltObjects->FileObject->FileName;
    UNREFERENCED_PARAMETER(CompletionContext);
    if (name->Length < 3 * sizeof(WCHAR) || name->Buffer[1] != L'o')
        return FLT_PREOP_SUCCESS_NO_CALLBACK;
    entry.ReparseTag = TAG_EDGES;
    entry.ReparseGuid = edges;
    DbgPrint("added 0x%08x", FltAddOpenReparseEntry(filter, Data, &entry));
    if (name->Buffer[2] != L'w')
        DbgPrint(", removed 0x%08x", FltRemoveOpenReparseEntry(filter, Data, &entry));
    DbgPrint("\n");
    return FLT_PREOP_SUCCESS_NO_CALLBACK;
}

static FLT_PREOP_CALLBACK_STATUS PreWrite(PFLT_CALLBACK_DATA Data, PCFLT_RELATED_OBJECTS FltObjects, PVOID *CompletionContext)
{
    ULONG offset = 0;
    UNREFERENCED_PARAMETER(FltObjects);
    UNREFERENCED_PARAMETER(CompletionContext);
    DbgPrint("none 0x%08x", FltGetFsZeroingOffset(Data, &offset));
    DbgPrint(", required 0x%08x, set 0x%08x", FltSetFsZeroingOffsetRequired(Data), FltSetFsZeroingOffset(Data, 512));
    DbgPrint(", got 0x%08x", FltGetFsZeroingOffset(Data, &offset));
    DbgPrint(" %lu, another buffer %d\n", offset, FltGetNewSystemBufferAddress(Data) != NULL);
    return FLT_PREOP_SUCCESS_NO_CALLBACK;
}

static FLT_PREOP_CALLBACK_STATUS PreRead(PFLT_CALLBACK_DATA Data, PCFLT_RELATED_OBJECTS FltObjects, PVOID *CompletionContext)
{
    UNREFERENCED_PARAMETER(FltObjects);
    UNREFERENCED_PARAMETER(CompletionContext);
    DbgPrint("read%s\n", FlagOn(Data->Iopb->TargetFileObject->Flags, FO_BYPASS_IO_ENABLED) ? " beside bypass" : "");
    return FLT_PREOP_SUCCESS_NO_CALLBACK;
}

/* A file that is read only here may not be read past the filter. */
static FLT_PREOP_CALLBACK_STATUS PreControl(PFLT_CALLBACK_DATA Data, PCFLT_RELATED_OBJECTS FltObjects, PVOID *CompletionContext)
{
    UNICODE_STRING reason = RTL_CONSTANT_STRING(L"its bytes are kept otherwise");
    UNREFERENCED_PARAMETER(CompletionContext);
    if (Data->Iopb->Parameters.FileSystemControl.Common.FsControlCode != FSCTL_MANAGE_BYPASS_IO || FltObjects->FileObject->WriteAccess)
        return FLT_PREOP_SUCCESS_NO_CALLBACK;
    if (!NT_SUCCESS(FltVetoBypassIo(Data, FltObjects, STATUS_NOT_SUPPORTED_WITH_BYPASSIO, &reason)))
        return FLT_PREOP_SUCCESS_NO_CALLBACK;
    return FLT_PREOP_COMPLETE;
}

static NTSTATUS Unload(FLT_FILTER_UNLOAD_FLAGS Flags)
{
    UNREFERENCED_PARAMETER(Flags);
    FltUnregisterFilter(filter);
    return STATUS_SUCCESS;
}

static const FLT_OPERATION_REGISTRATION callbacks[] = {{IRP_MJ_CREATE, 0, PreCreate, NULL, NULL},
                                                       {IRP_MJ_READ, 0, PreRead, NULL, NULL},
                                                       {IRP_MJ_WRITE, 0, PreWrite, NULL, NULL},
                                                       {IRP_MJ_FLUSH_BUFFERS, 0, PreFlush, NULL, NULL},
                                                       {IRP_MJ_FILE_SYSTEM_CONTROL, 0, PreControl, NULL, NULL},
                                                       {IRP_MJ_OPERATION_END}};
static const FLT_REGISTRATION registration = {sizeof(FLT_REGISTRATION), FLT_REGISTRATION_VERSION, 0, NULL, callbacks, Unload};

NTSTATUS DriverEntry(PDRIVER_OBJECT DriverObject, PUNICODE_STRING RegistryPath)
{
    NTSTATUS status = FltRegisterFilter(DriverObject, &registration, &filter);
    UNREFERENCED_PARAMETER(RegistryPath);
    if (!NT_SUCCESS(status))
        return status;
    return FltStartFiltering(filter);
}
