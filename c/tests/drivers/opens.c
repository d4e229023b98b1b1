/* A filter that says what each create asks for, and what came of it; and of each read who asks. Of a name that begins with `x` its instance above opens another file itself, in the ways of the kit. */
#include <fltKernel.h>

static PFLT_FILTER gFilter;

static FLT_PREOP_CALLBACK_STATUS PreCreate(_Inout_ PFLT_CALLBACK_DATA Data, _In_ PCFLT_RELATED_OBJECTS FltObjects, _Flt_CompletionContext_Outptr_ PVOID *CompletionContext)
{
    PFLT_PARAMETERS asked = &Data->Iopb->Parameters;

    UNREFERENCED_PARAMETER(CompletionContext);
    DbgPrint("%wZ: access %08x share %x disposition %u options %06x attributes %x eas %u allocation %I64d\n", &FltObjects->FileObject->FileName,
             asked->Create.SecurityContext->DesiredAccess, asked->Create.ShareAccess, asked->Create.Options >> 24, asked->Create.Options & FILE_VALID_OPTION_FLAGS,
             asked->Create.FileAttributes, asked->Create.EaLength, asked->Create.AllocationSize.QuadPart);
    return FLT_PREOP_SUCCESS_WITH_CALLBACK;
}

static VOID Open(_In_ PCFLT_RELATED_OBJECTS FltObjects, _In_ PCWSTR Name, _In_ ACCESS_MASK Access, _In_ ULONG Share, _In_ ULONG Disposition, _In_ ULONG Options)
{
    UNICODE_STRING name;
    OBJECT_ATTRIBUTES attributes;
    IO_STATUS_BLOCK io = {0};
    HANDLE file;
    LARGE_INTEGER allocation = {.QuadPart = 4096};
    NTSTATUS status;

    RtlInitUnicodeString(&name, Name);
    InitializeObjectAttributes(&attributes, &name, OBJ_KERNEL_HANDLE | OBJ_CASE_INSENSITIVE, NULL, NULL);
    status = FltCreateFile(FltObjects->Filter, FltObjects->Instance, &file, Access, &attributes, &io, &allocation, FILE_ATTRIBUTE_HIDDEN, Share, Disposition, Options, NULL, 0, 0);
    DbgPrint("own: status %08x information %u\n", status, (ULONG)io.Information);
    if (NT_SUCCESS(status)) {
        FltClose(file);
    }
}

static FLT_POSTOP_CALLBACK_STATUS PostCreate(_Inout_ PFLT_CALLBACK_DATA Data, _In_ PCFLT_RELATED_OBJECTS FltObjects, _In_opt_ PVOID CompletionContext, _In_ FLT_POST_OPERATION_FLAGS Flags)
{
    PFILE_OBJECT file = FltObjects->FileObject;

    UNREFERENCED_PARAMETER(CompletionContext);
    UNREFERENCED_PARAMETER(Flags);
    DbgPrint("%wZ: status %08x information %u disposition %u flags %08x access %u%u%u shares %u%u%u\n", &file->FileName, Data->IoStatus.Status, (ULONG)Data->IoStatus.Information,
             Data->Iopb->Parameters.Create.Options >> 24, file->Flags, file->ReadAccess, file->WriteAccess, file->DeleteAccess, file->SharedRead, file->SharedWrite, file->SharedDelete);
    if (NT_SUCCESS(Data->IoStatus.Status) && file->FileName.Length == 2 * sizeof(WCHAR) && file->FileName.Buffer[1] == 'x') {
        Open(FltObjects, L"\\Device\\v0\\own", GENERIC_READ | GENERIC_WRITE, FILE_SHARE_READ, FILE_SUPERSEDE, FILE_NON_DIRECTORY_FILE | FILE_WRITE_THROUGH);
        Open(FltObjects, L"\\Device\\v0\\own", FILE_READ_ATTRIBUTES, 0, FILE_OPEN, 0);
        Open(FltObjects, L"\\Device\\v0\\x", FILE_READ_DATA, 0, FILE_OPEN, FILE_SEQUENTIAL_ONLY);
    }
    return FLT_POSTOP_FINISHED_PROCESSING;
}

static FLT_PREOP_CALLBACK_STATUS PreRead(_Inout_ PFLT_CALLBACK_DATA Data, _In_ PCFLT_RELATED_OBJECTS FltObjects, _Flt_CompletionContext_Outptr_ PVOID *CompletionContext)
{
    UNREFERENCED_PARAMETER(FltObjects);
    UNREFERENCED_PARAMETER(CompletionContext);
    DbgPrint("read: at %I64d, flags %08x, %s mode\n", Data->Iopb->Parameters.Read.ByteOffset.QuadPart, Data->Flags, Data->RequestorMode == UserMode ? "user" : "kernel");
    return FLT_PREOP_SUCCESS_NO_CALLBACK;
}

static NTSTATUS Unload(_In_ FLT_FILTER_UNLOAD_FLAGS Flags)
{
    UNREFERENCED_PARAMETER(Flags);
    FltUnregisterFilter(gFilter);
    return STATUS_SUCCESS;
}

static const FLT_OPERATION_REGISTRATION Callbacks[] = {{IRP_MJ_CREATE, 0, PreCreate, PostCreate}, {IRP_MJ_READ, 0, PreRead, NULL}, {IRP_MJ_OPERATION_END}};
static const FLT_REGISTRATION Registration = {sizeof(FLT_REGISTRATION), FLT_REGISTRATION_VERSION, 0, NULL, Callbacks, Unload};

NTSTATUS DriverEntry(_In_ PDRIVER_OBJECT DriverObject, _In_ PUNICODE_STRING RegistryPath)
{
    NTSTATUS status;

    UNREFERENCED_PARAMETER(RegistryPath);
    status = FltRegisterFilter(DriverObject, &Registration, &gFilter);
    if (NT_SUCCESS(status)) {
        status = FltStartFiltering(gFilter);
        if (!NT_SUCCESS(status)) {
            FltUnregisterFilter(gFilter);
        }
    }
    return status;
}
