/* A scanner that looks at a file through a section: what it sees is what the file held as the section was made. */
#include <fltKernel.h>

#define TAG 'tceS'

PFLT_FILTER gFilter;

static VOID Cleanup(PFLT_CONTEXT Context, FLT_CONTEXT_TYPE Type)
{
    UNREFERENCED_PARAMETER(Context);
    DbgPrint("Sections: a context is cleaned up, type 0x%04x\n", Type);
}

static VOID Scan(HANDLE Section, PLARGE_INTEGER Size)
{
    PVOID view = NULL;
    SIZE_T length = 0;
    NTSTATUS status = ZwMapViewOfSection(Section, NtCurrentProcess(), &view, 0, 0, NULL, &length, ViewUnmap, 0, PAGE_READONLY);
    if (!NT_SUCCESS(status))
        return;
    DbgPrint("Sections: %I64d bytes, the first is '%c'\n", Size->QuadPart, *(PCHAR)view);
    ZwUnmapViewOfSection(NtCurrentProcess(), view);
}

static FLT_POSTOP_CALLBACK_STATUS PostCreate(PFLT_CALLBACK_DATA Data, PCFLT_RELATED_OBJECTS FltObjects, PVOID Context, FLT_POST_OPERATION_FLAGS Flags)
{
    PFLT_CONTEXT context, there;
    HANDLE section;
    PVOID object;
    LARGE_INTEGER size;
    NTSTATUS status;

    UNREFERENCED_PARAMETER(Context);
    if ((Flags & FLTFL_POST_OPERATION_DRAINING) || !NT_SUCCESS(Data->IoStatus.Status))
        return FLT_POSTOP_FINISHED_PROCESSING;
    if (!NT_SUCCESS(FltAllocateContext(gFilter, FLT_SECTION_CONTEXT, 16, PagedPool, &context)))
        return FLT_POSTOP_FINISHED_PROCESSING;
    status = FltCreateSectionForDataScan(FltObjects->Instance, FltObjects->FileObject, context, SECTION_MAP_READ, NULL, NULL, PAGE_READONLY, SEC_COMMIT, 0, &section,
                                         &object, &size);
    if (NT_SUCCESS(status)) {
        Scan(section, &size);
        if (NT_SUCCESS(FltGetSectionContext(FltObjects->Instance, FltObjects->FileObject, &there))) {
            DbgPrint("Sections: its context is there: %u\n", there == context);
            FltReleaseContext(there);
        }
        FltCloseSectionForDataScan(context);
        ZwClose(section);
        ObDereferenceObject(object);
    } else {
        DbgPrint("Sections: none, 0x%08x\n", status);
    }
    FltReleaseContext(context);
    return FLT_POSTOP_FINISHED_PROCESSING;
}

static NTSTATUS Setup(PCFLT_RELATED_OBJECTS FltObjects, FLT_INSTANCE_SETUP_FLAGS Flags, DEVICE_TYPE Device, FLT_FILESYSTEM_TYPE Type)
{
    UNREFERENCED_PARAMETER(Flags);
    UNREFERENCED_PARAMETER(Device);
    UNREFERENCED_PARAMETER(Type);
    return FltRegisterForDataScan(FltObjects->Instance);
}

static NTSTATUS Unload(FLT_FILTER_UNLOAD_FLAGS Flags)
{
    UNREFERENCED_PARAMETER(Flags);
    FltUnregisterFilter(gFilter);
    return STATUS_SUCCESS;
}

static CONST FLT_OPERATION_REGISTRATION Operations[] = {{IRP_MJ_CREATE, 0, NULL, PostCreate}, {IRP_MJ_OPERATION_END}};
static CONST FLT_CONTEXT_REGISTRATION Contexts[] = {{FLT_SECTION_CONTEXT, 0, Cleanup, 16, TAG}, {FLT_CONTEXT_END}};
static CONST FLT_REGISTRATION Registration = {.Size = sizeof(FLT_REGISTRATION),
                                              .Version = FLT_REGISTRATION_VERSION,
                                              .ContextRegistration = Contexts,
                                              .OperationRegistration = Operations,
                                              .FilterUnloadCallback = Unload,
                                              .InstanceSetupCallback = Setup};

NTSTATUS DriverEntry(PDRIVER_OBJECT DriverObject, PUNICODE_STRING RegistryPath)
{
    UNREFERENCED_PARAMETER(RegistryPath);
    NTSTATUS status = FltRegisterFilter(DriverObject, &Registration, &gFilter);
    return NT_SUCCESS(status) ? FltStartFiltering(gFilter) : status;
}
