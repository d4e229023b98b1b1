/* Each thing that is made is unmade by the call that is meant for it, on each path: a device with its link, a provider of events, subject contexts, aligned memory, entries of a list, strings by either of two
 * calls, MDLs of pages that stay and of such as are locked. */
#include <fltKernel.h>

#define UNMADE_TAG 'amnU'

static PFLT_FILTER gFilter;
static PDEVICE_OBJECT gDevice;
static NPAGED_LOOKASIDE_LIST gList;
static REGHANDLE gProvider;
static const GUID gGuid = {0x1d3a5b7c, 0x1122, 0x3344, {1, 2, 3, 4, 5, 6, 7, 8}};

static VOID Describe(POOL_TYPE Type)
{
    PVOID room = ExAllocatePoolWithTag(Type, 64, UNMADE_TAG);
    PMDL mdl = room != NULL ? IoAllocateMdl(room, 64, FALSE, FALSE, NULL) : NULL;

    if (mdl != NULL && Type == NonPagedPool) {
        MmBuildMdlForNonPagedPool(mdl);
    } else if (mdl != NULL) {
        __try {
            MmProbeAndLockPages(mdl, KernelMode, IoWriteAccess);
            MmUnlockPages(mdl);
        } __except (EXCEPTION_EXECUTE_HANDLER) {
            DbgPrint("not locked\n");
        }
    }
    if (mdl != NULL) {
        IoFreeMdl(mdl);
    }
    if (room != NULL) {
        ExFreePoolWithTag(room, UNMADE_TAG);
    }
}

static VOID Strings(VOID)
{
    UNICODE_STRING name = RTL_CONSTANT_STRING(L"one"), copy;
    ANSI_STRING narrow;

    if (NT_SUCCESS(RtlUpcaseUnicodeString(&copy, &name, TRUE))) {
        RtlFreeUnicodeString(&copy);
    }
    if (NT_SUCCESS(RtlUpcaseUnicodeString(&copy, &name, TRUE))) {
        ExFreePool(copy.Buffer);
    }
    if (NT_SUCCESS(RtlUnicodeStringToAnsiString(&narrow, &name, TRUE))) {
        RtlFreeAnsiString(&narrow);
    }
}

static FLT_PREOP_CALLBACK_STATUS PreFlush(PFLT_CALLBACK_DATA Data, PCFLT_RELATED_OBJECTS FltObjects, PVOID *CompletionContext)
{
    SECURITY_SUBJECT_CONTEXT subject;
    PVOID aligned = FltAllocatePoolAlignedWithTag(FltObjects->Instance, NonPagedPool, 64, UNMADE_TAG), entry = ExAllocateFromNPagedLookasideList(&gList);
    PFLT_GENERIC_WORKITEM item = FltAllocateGenericWorkItem();

    UNREFERENCED_PARAMETER(Data);
    UNREFERENCED_PARAMETER(CompletionContext);
    SeCaptureSubjectContext(&subject);
    SeReleaseSubjectContext(&subject);
    if (aligned != NULL) {
        FltFreePoolAlignedWithTag(FltObjects->Instance, aligned, UNMADE_TAG);
    }
    if (entry != NULL) {
        ExFreeToNPagedLookasideList(&gList, entry);
    }
    if (item != NULL) {
        FltFreeGenericWorkItem(item);
    }
    Strings();
    Describe(NonPagedPool);
    Describe(PagedPool);
    return FLT_PREOP_SUCCESS_NO_CALLBACK;
}

static VOID DeleteAll(VOID)
{
    UNICODE_STRING link = RTL_CONSTANT_STRING(L"\\DosDevices\\Unmade");

    ExDeleteNPagedLookasideList(&gList);
    EtwUnregister(gProvider);
    IoDeleteSymbolicLink(&link);
    IoDeleteDevice(gDevice);
}

static NTSTATUS Unload(FLT_FILTER_UNLOAD_FLAGS Flags)
{
    UNREFERENCED_PARAMETER(Flags);
    FltUnregisterFilter(gFilter);
    DeleteAll();
    return STATUS_SUCCESS;
}

static const FLT_OPERATION_REGISTRATION gOperations[] = {{IRP_MJ_FLUSH_BUFFERS, 0, PreFlush, NULL}, {IRP_MJ_OPERATION_END}};
static const FLT_REGISTRATION gRegistration = {sizeof(FLT_REGISTRATION), FLT_REGISTRATION_VERSION, 0, NULL, gOperations, Unload};

NTSTATUS DriverEntry(PDRIVER_OBJECT DriverObject, PUNICODE_STRING RegistryPath)
{
    UNICODE_STRING name = RTL_CONSTANT_STRING(L"\\Device\\Unmade"), link = RTL_CONSTANT_STRING(L"\\DosDevices\\Unmade");
    NTSTATUS status;

    UNREFERENCED_PARAMETER(RegistryPath);
    status = IoCreateDevice(DriverObject, 0, &name, FILE_DEVICE_UNKNOWN, FILE_DEVICE_SECURE_OPEN, FALSE, &gDevice);
    if (!NT_SUCCESS(status)) {
        return status;
    }
    status = IoCreateSymbolicLink(&link, &name);
    if (!NT_SUCCESS(status)) {
        IoDeleteDevice(gDevice);
        return status;
    }
    EtwRegister(&gGuid, NULL, NULL, &gProvider);
    ExInitializeNPagedLookasideList(&gList, NULL, NULL, 0, 64, UNMADE_TAG, 0);
    status = FltRegisterFilter(DriverObject, &gRegistration, &gFilter);
    if (NT_SUCCESS(status)) {
        status = FltStartFiltering(gFilter);
        if (!NT_SUCCESS(status)) {
            FltUnregisterFilter(gFilter);
        }
    }
    if (!NT_SUCCESS(status)) {
        DeleteAll();
    }
    return status;
}
