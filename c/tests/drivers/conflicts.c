/* A scanner that keeps a section of each file that begins with `s` open, and looks at it as the file is flushed; whoever is about to cut the file has it closed, but for that of `stay`. */
#include <fltKernel.h>

typedef struct _SCAN {
    HANDLE Handle;
    PVOID Object, View;
    ULONG Stays;
} SCAN, *PSCAN;

static PFLT_FILTER gFilter;

static VOID Close(_In_ PSCAN Scan)
{
    if (Scan->Handle != NULL) {
        ZwUnmapViewOfSection(NtCurrentProcess(), Scan->View);
        ZwClose(Scan->Handle);
        ObDereferenceObject(Scan->Object);
        Scan->Handle = NULL;
        FltCloseSectionForDataScan(Scan);
    }
}

static NTSTATUS Conflict(_In_ PFLT_INSTANCE Instance, _In_ PFLT_CONTEXT SectionContext, _In_ PFLT_CALLBACK_DATA Data)
{
    PSCAN scan = SectionContext;

    UNREFERENCED_PARAMETER(Instance);
    DbgPrint("a conflict by major %u: the section %s\n", Data->Iopb->MajorFunction, scan->Stays ? "stays" : "is closed");
    if (!scan->Stays) {
        Close(scan);
    }
    return STATUS_SUCCESS;
}

static FLT_POSTOP_CALLBACK_STATUS PostCreate(_Inout_ PFLT_CALLBACK_DATA Data, _In_ PCFLT_RELATED_OBJECTS FltObjects, _In_opt_ PVOID CompletionContext, _In_ FLT_POST_OPERATION_FLAGS Flags)
{
    PWCHAR name = FltObjects->FileObject->FileName.Buffer;
    SIZE_T length = 0;
    LARGE_INTEGER size;
    PSCAN scan;
    NTSTATUS status;

    UNREFERENCED_PARAMETER(CompletionContext);
    UNREFERENCED_PARAMETER(Flags);
    if (!NT_SUCCESS(Data->IoStatus.Status) || FltObjects->FileObject->FileName.Length < 5 * sizeof(WCHAR) || name[1] != L's' ||
        !NT_SUCCESS(FltAllocateContext(gFilter, FLT_SECTION_CONTEXT, sizeof(SCAN), PagedPool, (PFLT_CONTEXT *)&scan))) {
        return FLT_POSTOP_FINISHED_PROCESSING;
    }
    RtlZeroMemory(scan, sizeof(*scan));
    scan->Stays = name[2] == L't';
    status = FltCreateSectionForDataScan(FltObjects->Instance, FltObjects->FileObject, scan, SECTION_MAP_READ, NULL, NULL, PAGE_READONLY, SEC_COMMIT, 0, &scan->Handle, &scan->Object, &size);
    if (NT_SUCCESS(status)) {
        ZwMapViewOfSection(scan->Handle, NtCurrentProcess(), &scan->View, 0, 0, NULL, &length, ViewUnmap, 0, PAGE_READONLY);
        DbgPrint("a section of %I64d bytes\n", size.QuadPart);
    }
    FltReleaseContext(scan);
    return FLT_POSTOP_FINISHED_PROCESSING;
}

static FLT_PREOP_CALLBACK_STATUS PreFlush(_Inout_ PFLT_CALLBACK_DATA Data, _In_ PCFLT_RELATED_OBJECTS FltObjects, _Flt_CompletionContext_Outptr_ PVOID *CompletionContext)
{
    PSCAN scan;

    UNREFERENCED_PARAMETER(Data);
    UNREFERENCED_PARAMETER(CompletionContext);
    if (NT_SUCCESS(FltGetSectionContext(FltObjects->Instance, FltObjects->FileObject, (PFLT_CONTEXT *)&scan))) {
        DbgPrint("it holds %.4s\n", (PCSTR)scan->View);
        FltReleaseContext(scan);
    } else {
        DbgPrint("no section\n");
    }
    return FLT_PREOP_SUCCESS_NO_CALLBACK;
}

static FLT_PREOP_CALLBACK_STATUS PreCleanup(_Inout_ PFLT_CALLBACK_DATA Data, _In_ PCFLT_RELATED_OBJECTS FltObjects, _Flt_CompletionContext_Outptr_ PVOID *CompletionContext)
{
    PSCAN scan;

    UNREFERENCED_PARAMETER(Data);
    UNREFERENCED_PARAMETER(CompletionContext);
    if (NT_SUCCESS(FltGetSectionContext(FltObjects->Instance, FltObjects->FileObject, (PFLT_CONTEXT *)&scan))) {
        Close(scan);
        FltReleaseContext(scan);
    }
    return FLT_PREOP_SUCCESS_NO_CALLBACK;
}

static NTSTATUS Setup(_In_ PCFLT_RELATED_OBJECTS FltObjects, _In_ FLT_INSTANCE_SETUP_FLAGS Flags, _In_ DEVICE_TYPE VolumeDeviceType, _In_ FLT_FILESYSTEM_TYPE VolumeFilesystemType)
{
    UNREFERENCED_PARAMETER(Flags);
    UNREFERENCED_PARAMETER(VolumeDeviceType);
    UNREFERENCED_PARAMETER(VolumeFilesystemType);
    return FltRegisterForDataScan(FltObjects->Instance);
}

static NTSTATUS Unload(_In_ FLT_FILTER_UNLOAD_FLAGS Flags)
{
    UNREFERENCED_PARAMETER(Flags);
    FltUnregisterFilter(gFilter);
    return STATUS_SUCCESS;
}

static const FLT_OPERATION_REGISTRATION Callbacks[] = {{IRP_MJ_CREATE, 0, NULL, PostCreate}, {IRP_MJ_FLUSH_BUFFERS, 0, PreFlush, NULL}, {IRP_MJ_CLEANUP, 0, PreCleanup, NULL}, {IRP_MJ_OPERATION_END}};
static const FLT_CONTEXT_REGISTRATION Contexts[] = {{FLT_SECTION_CONTEXT, 0, NULL, sizeof(SCAN), 'nacS'}, {FLT_CONTEXT_END}};
static const FLT_REGISTRATION Registration = {.Size = sizeof(FLT_REGISTRATION), .Version = FLT_REGISTRATION_VERSION, .ContextRegistration = Contexts, .OperationRegistration = Callbacks,
                                              .FilterUnloadCallback = Unload, .InstanceSetupCallback = Setup, .SectionNotificationCallback = Conflict};

NTSTATUS DriverEntry(_In_ PDRIVER_OBJECT DriverObject, _In_ PUNICODE_STRING RegistryPath)
{
    NTSTATUS status = FltRegisterFilter(DriverObject, &Registration, &gFilter);

    UNREFERENCED_PARAMETER(RegistryPath);
    if (NT_SUCCESS(status)) {
        status = FltStartFiltering(gFilter);
        if (!NT_SUCCESS(status)) {
            FltUnregisterFilter(gFilter);
        }
    }
    return status;
}
