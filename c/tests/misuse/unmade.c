/* What was made and isn't unmade by the call that is meant for it: a device, a link, a provider of events and a subject context are left; memory of one family is freed as another's; an MDL describes
 * pages that don't stay, or that stay already. Each flush takes the next step. */
#include <fltKernel.h>

#define UNMADE_TAG 'amnU'

static PFLT_FILTER gFilter;
static PDEVICE_OBJECT gDevice;
static NPAGED_LOOKASIDE_LIST gList;
static REGHANDLE gProvider;
static const GUID gGuid = {0x1d3a5b7c, 0x1122, 0x3344, {1, 2, 3, 4, 5, 6, 7, 8}};
static ULONG gStep;

static VOID DescribePaged(BOOLEAN IsLocked)
{
    PVOID room = ExAllocatePoolWithTag(PagedPool, 64, UNMADE_TAG);
    PMDL mdl = room != NULL ? IoAllocateMdl(room, 64, FALSE, FALSE, NULL) : NULL;

    if (mdl != NULL && IsLocked) {
        __try {
            MmProbeAndLockPages(mdl, KernelMode, IoWriteAccess);
            MmUnlockPages(mdl);
            MmUnlockPages(mdl);
        } __except (EXCEPTION_EXECUTE_HANDLER) {
            DbgPrint("not locked\n");
        }
    } else if (mdl != NULL) {
        MmBuildMdlForNonPagedPool(mdl);
    }
    if (mdl != NULL) {
        IoFreeMdl(mdl);
    }
    if (room != NULL) {
        ExFreePoolWithTag(room, UNMADE_TAG);
    }
}

static VOID TakeStep(PCFLT_RELATED_OBJECTS FltObjects)
{
    SECURITY_SUBJECT_CONTEXT subject;
    PVOID memory;

    switch (gStep++) {
    case 0:
        SeCaptureSubjectContext(&subject);
        break;
    case 1:
        memory = FltAllocatePoolAlignedWithTag(FltObjects->Instance, NonPagedPool, 64, UNMADE_TAG);
        if (memory != NULL) {
            ExFreePoolWithTag(memory, UNMADE_TAG);
        }
        break;
    case 2:
        memory = ExAllocatePoolWithTag(NonPagedPool, 64, UNMADE_TAG);
        if (memory != NULL) {
            FltFreePoolAlignedWithTag(FltObjects->Instance, memory, UNMADE_TAG);
        }
        break;
    case 3:
        memory = ExAllocateFromNPagedLookasideList(&gList);
        if (memory != NULL) {
            ExFreePoolWithTag(memory, UNMADE_TAG);
        }
        break;
    case 4:
        memory = FltAllocateGenericWorkItem();
        if (memory != NULL) {
            ExFreePool(memory);
        }
        break;
    case 5:
        DescribePaged(FALSE);
        break;
    case 6:
        DescribePaged(TRUE);
        break;
    case 7:
        EtwUnregister(gProvider);
        EtwUnregister(gProvider);
        EtwRegister(&gGuid, NULL, NULL, &gProvider);
        break;
    }
}

static FLT_PREOP_CALLBACK_STATUS PreFlush(PFLT_CALLBACK_DATA Data, PCFLT_RELATED_OBJECTS FltObjects, PVOID *CompletionContext)
{
    UNREFERENCED_PARAMETER(Data);
    UNREFERENCED_PARAMETER(CompletionContext);
    TakeStep(FltObjects);
    return FLT_PREOP_SUCCESS_NO_CALLBACK;
}

static NTSTATUS Unload(FLT_FILTER_UNLOAD_FLAGS Flags)
{
    UNREFERENCED_PARAMETER(Flags);
    FltUnregisterFilter(gFilter);
    ExDeleteNPagedLookasideList(&gList);
    return STATUS_SUCCESS;
}

static const FLT_OPERATION_REGISTRATION gOperations[] = {{IRP_MJ_FLUSH_BUFFERS, 0, PreFlush, NULL}, {IRP_MJ_OPERATION_END}};
static const FLT_REGISTRATION gRegistration = {sizeof(FLT_REGISTRATION), FLT_REGISTRATION_VERSION, 0, NULL, gOperations, Unload};

NTSTATUS DriverEntry(PDRIVER_OBJECT DriverObject, PUNICODE_STRING RegistryPath)
{
    UNICODE_STRING name = RTL_CONSTANT_STRING(L"\\Device\\Unmade"), link = RTL_CONSTANT_STRING(L"\\DosDevices\\Unmade");
    NTSTATUS status;

    UNREFERENCED_PARAMETER(RegistryPath);
    status = IoCreateDevice(DriverObject, 0, &name, FILE_DEVICE_UNKNOWN, FILE_DEVICE_SECURE_OPEN, FALSE, &gDevice);
    if (NT_SUCCESS(status)) {
        status = IoCreateSymbolicLink(&link, &name);
    }
    if (!NT_SUCCESS(status)) {
        return status;
    }
    EtwRegister(&gGuid, NULL, NULL, &gProvider);
    ExInitializeNPagedLookasideList(&gList, NULL, NULL, 0, 64, UNMADE_TAG, 0);
    status = FltRegisterFilter(DriverObject, &gRegistration, &gFilter);
    if (NT_SUCCESS(status)) {
        status = FltStartFiltering(gFilter);
        if (!NT_SUCCESS(status)) {
            FltUnregisterFilter(gFilter);
        }
    }
    return status;
}
