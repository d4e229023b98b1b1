/* A scanner that opens what is cleaned up, and leaves it to the next time if an oplock is in the way: it has the create complete at once, and looks at its answer. */
#include <fltKernel.h>

DRIVER_INITIALIZE DriverEntry;
static PFLT_FILTER Filter;

static VOID ReadAll(PCFLT_RELATED_OBJECTS FltObjects, PFILE_OBJECT FileObject)
{
    LARGE_INTEGER place = {.QuadPart = 0};
    UCHAR bytes[16];
    ULONG count = 0;

    FltReadFile(FltObjects->Instance, FileObject, &place, sizeof bytes, bytes, 0, &count, NULL, NULL);
}

static VOID Scan(PFLT_CALLBACK_DATA Data, PCFLT_RELATED_OBJECTS FltObjects)
{
    PFLT_FILE_NAME_INFORMATION name;
    OBJECT_ATTRIBUTES attributes;
    IO_STATUS_BLOCK block;
    PFILE_OBJECT file;
    HANDLE handle;
    NTSTATUS status = FltGetFileNameInformation(Data, FLT_FILE_NAME_NORMALIZED | FLT_FILE_NAME_QUERY_DEFAULT, &name);

    if (!NT_SUCCESS(status)) {
        return;
    }
    InitializeObjectAttributes(&attributes, &name->Name, OBJ_KERNEL_HANDLE | OBJ_CASE_INSENSITIVE, NULL, NULL);
    status = FltCreateFileEx2(Filter, FltObjects->Instance, &handle, &file, FILE_READ_DATA | SYNCHRONIZE, &attributes, &block, NULL, FILE_ATTRIBUTE_NORMAL,
                              FILE_SHARE_READ | FILE_SHARE_WRITE | FILE_SHARE_DELETE, FILE_OPEN, FILE_NON_DIRECTORY_FILE | FILE_SYNCHRONOUS_IO_NONALERT | FILE_COMPLETE_IF_OPLOCKED, NULL, 0,
                              IO_IGNORE_SHARE_ACCESS_CHECK, NULL);
    if (NT_SUCCESS(status)) {
        if (status != STATUS_OPLOCK_BREAK_IN_PROGRESS) {
            ReadAll(FltObjects, file);
        }
        FltClose(handle);
        ObDereferenceObject(file);
    }
    FltReleaseFileNameInformation(name);
}

static FLT_PREOP_CALLBACK_STATUS PreCleanup(PFLT_CALLBACK_DATA Data, PCFLT_RELATED_OBJECTS FltObjects, PVOID *CompletionContext)
{
    BOOLEAN isDirectory = TRUE;

    UNREFERENCED_PARAMETER(CompletionContext);
    if (NT_SUCCESS(FltIsDirectory(FltObjects->FileObject, FltObjects->Instance, &isDirectory)) && !isDirectory) {
        Scan(Data, FltObjects);
    }
    return FLT_PREOP_SUCCESS_NO_CALLBACK;
}

static NTSTATUS Unload(FLT_FILTER_UNLOAD_FLAGS Flags)
{
    UNREFERENCED_PARAMETER(Flags);
    FltUnregisterFilter(Filter);
    return STATUS_SUCCESS;
}

static CONST FLT_OPERATION_REGISTRATION Callbacks[] = {{IRP_MJ_CLEANUP, 0, PreCleanup, NULL, NULL}, {IRP_MJ_OPERATION_END, 0, NULL, NULL, NULL}};

static CONST FLT_REGISTRATION Registration = {sizeof(FLT_REGISTRATION), FLT_REGISTRATION_VERSION, 0, NULL, Callbacks, Unload, NULL, NULL, NULL, NULL, NULL, NULL, NULL, NULL};

NTSTATUS DriverEntry(PDRIVER_OBJECT DriverObject, PUNICODE_STRING RegistryPath)
{
    NTSTATUS status = FltRegisterFilter(DriverObject, &Registration, &Filter);

    UNREFERENCED_PARAMETER(RegistryPath);
    if (NT_SUCCESS(status)) {
        status = FltStartFiltering(Filter);
        if (!NT_SUCCESS(status)) {
            FltUnregisterFilter(Filter);
        }
    }
    return status;
}
