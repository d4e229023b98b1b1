/* A filter that opens each file once more by its numbers, as the kit's delete does: by its volume's GUID name and the number behind it, of 8 and of 16 bytes, and below its own instance by the number
 * alone; and by that volume's name and its path. */
#include <fltKernel.h>

static PFLT_FILTER gFilter;

static VOID Open(_In_ PCSTR How, _In_ PCFLT_RELATED_OBJECTS FltObjects, _In_ PUNICODE_STRING Name, _In_ ULONG Options)
{
    UCHAR room[64];
    PFILE_NAME_INFORMATION name = (PFILE_NAME_INFORMATION)room;
    OBJECT_ATTRIBUTES attributes;
    IO_STATUS_BLOCK io;
    PFILE_OBJECT object;
    HANDLE file;
    NTSTATUS status;

    InitializeObjectAttributes(&attributes, Name, OBJ_KERNEL_HANDLE | OBJ_CASE_INSENSITIVE, NULL, NULL);
    status = FltCreateFileEx2(FltObjects->Filter, FltObjects->Instance, &file, &object, FILE_READ_ATTRIBUTES, &attributes, &io, NULL, 0, FILE_SHARE_VALID_FLAGS, FILE_OPEN, Options, NULL, 0, 0, NULL);
    if (!NT_SUCCESS(status)) {
        DbgPrint("%s: %08x\n", How, status);
        return;
    }
    status = FltQueryInformationFile(FltObjects->Instance, object, name, sizeof(room), FileNameInformation, NULL);
    DbgPrint("%s: opened, %08x, %.*ws\n", How, status, name->FileNameLength / sizeof(WCHAR), name->FileName);
    ObDereferenceObject(object);
    FltClose(file);
}

static FLT_POSTOP_CALLBACK_STATUS PostCreate(_Inout_ PFLT_CALLBACK_DATA Data, _In_ PCFLT_RELATED_OBJECTS FltObjects, _In_opt_ PVOID CompletionContext, _In_ FLT_POST_OPERATION_FLAGS Flags)
{
    FILE_ID_INFORMATION id;
    FILE_INTERNAL_INFORMATION index;
    WCHAR letters[80];
    UNICODE_STRING name = {0, sizeof(letters), letters};
    USHORT prefix;

    UNREFERENCED_PARAMETER(CompletionContext);
    UNREFERENCED_PARAMETER(Flags);
    if (!NT_SUCCESS(Data->IoStatus.Status) || !NT_SUCCESS(FltGetVolumeGuidName(FltObjects->Volume, &name, NULL)) ||
        !NT_SUCCESS(FltQueryInformationFile(FltObjects->Instance, FltObjects->FileObject, &id, sizeof(id), FileIdInformation, NULL)) ||
        !NT_SUCCESS(FltQueryInformationFile(FltObjects->Instance, FltObjects->FileObject, &index, sizeof(index), FileInternalInformation, NULL))) {
        return FLT_POSTOP_FINISHED_PROCESSING;
    }
    DbgPrint("%wZ\n", &name);
    RtlAppendUnicodeToString(&name, L"\\");
    prefix = name.Length;
    RtlCopyMemory((PUCHAR)letters + prefix, &index.IndexNumber, sizeof(index.IndexNumber));
    name.Length = prefix + sizeof(index.IndexNumber);
    Open("8 bytes behind the volume", FltObjects, &name, FILE_OPEN_BY_FILE_ID);
    RtlCopyMemory((PUCHAR)letters + prefix, &id.FileId, sizeof(id.FileId));
    name.Length = prefix + sizeof(id.FileId);
    Open("16 bytes behind the volume", FltObjects, &name, FILE_OPEN_BY_FILE_ID);
    name.Buffer = letters + prefix / sizeof(WCHAR);
    name.Length = sizeof(index.IndexNumber);
    Open("8 bytes alone", FltObjects, &name, FILE_OPEN_BY_FILE_ID);
    name.Length = sizeof(id.FileId);
    Open("16 bytes alone", FltObjects, &name, FILE_OPEN_BY_FILE_ID);
    *(PULONG)(letters + prefix / sizeof(WCHAR)) += 1000;
    Open("another number", FltObjects, &name, FILE_OPEN_BY_FILE_ID);
    name.Buffer = letters;
    name.Length = prefix - sizeof(WCHAR);
    RtlAppendUnicodeStringToString(&name, &FltObjects->FileObject->FileName);
    Open("by its path", FltObjects, &name, 0);
    return FLT_POSTOP_FINISHED_PROCESSING;
}

static NTSTATUS Unload(_In_ FLT_FILTER_UNLOAD_FLAGS Flags)
{
    UNREFERENCED_PARAMETER(Flags);
    FltUnregisterFilter(gFilter);
    return STATUS_SUCCESS;
}

static const FLT_OPERATION_REGISTRATION Callbacks[] = {{IRP_MJ_CREATE, 0, NULL, PostCreate}, {IRP_MJ_OPERATION_END}};
static const FLT_REGISTRATION Registration = {sizeof(FLT_REGISTRATION), FLT_REGISTRATION_VERSION, 0, NULL, Callbacks, Unload};

NTSTATUS DriverEntry(_In_ PDRIVER_OBJECT DriverObject, _In_ PUNICODE_STRING RegistryPath)
{
    NTSTATUS status = FltRegisterFilter(DriverObject, &Registration, &gFilter);

    UNREFERENCED_PARAMETER(RegistryPath);
    if (NT_SUCCESS(status)) {
        status = FltStartFiltering(gFilter);
        if (!NT_SUCCESS(status)) {
            FltUnregisterFilter(gFilter);
        }
    }
    return status;
}
