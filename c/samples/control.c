/* A filter with a control device: a program opens it, says which extension is denied, and asks for the counts. The filter isn't unloaded while the device is open. */
#include <fltKernel.h>
#include <ntstrsafe.h>

#include "control.h"

PFLT_FILTER gFilterHandle;
static PDEVICE_OBJECT gDevice;
static UNICODE_STRING gDeviceName = RTL_CONSTANT_STRING(L"\\FileSystem\\Filters\\Control");
static UNICODE_STRING gLinkName = RTL_CONSTANT_STRING(L"\\DosDevices\\Control");
static FAST_MUTEX gLock; /* of what follows */
static CONTROL_RULE gRule;
static CONTROL_COUNTS gCounts;
static BOOLEAN gIsOpen;
static BOOLEAN gIsEnding;

/* ---- The device. */
static NTSTATUS Complete(PIRP Irp, NTSTATUS Status, ULONG_PTR Information)
{
    Irp->IoStatus.Status = Status;
    Irp->IoStatus.Information = Information;
    IoCompleteRequest(Irp, IO_NO_INCREMENT);
    return Status;
}

static NTSTATUS ControlCreate(PDEVICE_OBJECT DeviceObject, PIRP Irp)
{
    NTSTATUS status = STATUS_SUCCESS;

    UNREFERENCED_PARAMETER(DeviceObject);
    ExAcquireFastMutex(&gLock);
    if (gIsOpen || gIsEnding) {
        status = STATUS_ACCESS_DENIED;
    } else {
        gIsOpen = TRUE;
    }
    ExReleaseFastMutex(&gLock);
    return Complete(Irp, status, 0);
}

static NTSTATUS ControlCleanup(PDEVICE_OBJECT DeviceObject, PIRP Irp)
{
    UNREFERENCED_PARAMETER(DeviceObject);
    return Complete(Irp, STATUS_SUCCESS, 0);
}

static NTSTATUS ControlClose(PDEVICE_OBJECT DeviceObject, PIRP Irp)
{
    UNREFERENCED_PARAMETER(DeviceObject);
    ExAcquireFastMutex(&gLock);
    gIsOpen = FALSE;
    ExReleaseFastMutex(&gLock);
    return Complete(Irp, STATUS_SUCCESS, 0);
}

static NTSTATUS SetRule(PIRP Irp, ULONG Length)
{
    PCONTROL_RULE rule = Irp->AssociatedIrp.SystemBuffer;

    if (Length != sizeof(CONTROL_RULE) || rule->Extension[CONTROL_LETTERS - 1] != 0) {
        return Complete(Irp, STATUS_INVALID_PARAMETER, 0);
    }
    ExAcquireFastMutex(&gLock);
    gRule = *rule;
    ExReleaseFastMutex(&gLock);
    return Complete(Irp, STATUS_SUCCESS, 0);
}

static NTSTATUS GetCounts(PIRP Irp, ULONG Length)
{
    if (Length < sizeof(CONTROL_COUNTS)) {
        return Complete(Irp, STATUS_BUFFER_TOO_SMALL, 0);
    }
    ExAcquireFastMutex(&gLock);
    *(PCONTROL_COUNTS)Irp->AssociatedIrp.SystemBuffer = gCounts;
    ExReleaseFastMutex(&gLock);
    return Complete(Irp, STATUS_SUCCESS, sizeof(CONTROL_COUNTS));
}

static NTSTATUS ControlDevice(PDEVICE_OBJECT DeviceObject, PIRP Irp)
{
    PIO_STACK_LOCATION stack = IoGetCurrentIrpStackLocation(Irp);

    UNREFERENCED_PARAMETER(DeviceObject);
    switch (stack->Parameters.DeviceIoControl.IoControlCode) {
    case IOCTL_CONTROL_DENY:
        return SetRule(Irp, stack->Parameters.DeviceIoControl.InputBufferLength);
    case IOCTL_CONTROL_COUNTS:
        return GetCounts(Irp, stack->Parameters.DeviceIoControl.OutputBufferLength);
    default:
        return Complete(Irp, STATUS_INVALID_DEVICE_REQUEST, 0);
    }
}

/* Counts need no IRP: they are given in the program's own buffer, which may be gone. Anything else comes again as an IRP. */
static BOOLEAN ControlFast(PFILE_OBJECT FileObject, BOOLEAN Wait, PVOID InputBuffer, ULONG InputBufferLength, PVOID OutputBuffer, ULONG OutputBufferLength, ULONG IoControlCode,
                           PIO_STATUS_BLOCK IoStatus, PDEVICE_OBJECT DeviceObject)
{
    CONTROL_COUNTS counts;

    UNREFERENCED_PARAMETER(FileObject);
    UNREFERENCED_PARAMETER(Wait);
    UNREFERENCED_PARAMETER(InputBuffer);
    UNREFERENCED_PARAMETER(InputBufferLength);
    UNREFERENCED_PARAMETER(DeviceObject);
    if (IoControlCode != IOCTL_CONTROL_COUNTS || OutputBufferLength < sizeof(CONTROL_COUNTS)) {
        return FALSE;
    }
    ExAcquireFastMutex(&gLock);
    counts = gCounts;
    ExReleaseFastMutex(&gLock);
    IoStatus->Status = STATUS_SUCCESS;
    IoStatus->Information = sizeof(CONTROL_COUNTS);
    try {
        ProbeForWrite(OutputBuffer, sizeof(CONTROL_COUNTS), sizeof(ULONG));
        *(PCONTROL_COUNTS)OutputBuffer = counts;
    } except (EXCEPTION_EXECUTE_HANDLER) {
        IoStatus->Status = GetExceptionCode();
        IoStatus->Information = 0;
    }
    return TRUE;
}

static FAST_IO_DISPATCH gFastIo = {.SizeOfFastIoDispatch = sizeof(FAST_IO_DISPATCH), .FastIoDeviceControl = ControlFast};

static NTSTATUS CreateControlDevice(PDRIVER_OBJECT DriverObject)
{
    NTSTATUS status = IoCreateDevice(DriverObject, 0, &gDeviceName, FILE_DEVICE_UNKNOWN, FILE_DEVICE_SECURE_OPEN, FALSE, &gDevice);

    if (!NT_SUCCESS(status)) {
        return status;
    }
    DriverObject->MajorFunction[IRP_MJ_CREATE] = ControlCreate;
    DriverObject->MajorFunction[IRP_MJ_CLEANUP] = ControlCleanup;
    DriverObject->MajorFunction[IRP_MJ_CLOSE] = ControlClose;
    DriverObject->MajorFunction[IRP_MJ_DEVICE_CONTROL] = ControlDevice;
    DriverObject->FastIoDispatch = &gFastIo;
    status = IoCreateSymbolicLink(&gLinkName, &gDeviceName);
    if (!NT_SUCCESS(status)) {
        IoDeleteDevice(gDevice);
    }
    return status;
}

static VOID DeleteControlDevice(VOID)
{
    IoDeleteSymbolicLink(&gLinkName);
    IoDeleteDevice(gDevice);
}

/* ---- The filter. */
static BOOLEAN IsDenied(PCUNICODE_STRING Extension)
{
    UNICODE_STRING denied;
    BOOLEAN is;

    ExAcquireFastMutex(&gLock);
    RtlInitUnicodeString(&denied, gRule.Extension);
    is = denied.Length != 0 && RtlEqualUnicodeString(Extension, &denied, TRUE);
    if (is) {
        gCounts.Denied++;
    } else {
        gCounts.Allowed++;
    }
    ExReleaseFastMutex(&gLock);
    return is;
}

static FLT_PREOP_CALLBACK_STATUS ControlPreCreate(PFLT_CALLBACK_DATA Data, PCFLT_RELATED_OBJECTS FltObjects, PVOID *CompletionContext)
{
    PFLT_FILE_NAME_INFORMATION name;
    BOOLEAN is;

    UNREFERENCED_PARAMETER(FltObjects);
    UNREFERENCED_PARAMETER(CompletionContext);
    if (!NT_SUCCESS(FltGetFileNameInformation(Data, FLT_FILE_NAME_OPENED | FLT_FILE_NAME_QUERY_DEFAULT, &name))) {
        return FLT_PREOP_SUCCESS_NO_CALLBACK;
    }
    is = NT_SUCCESS(FltParseFileNameInformation(name)) && IsDenied(&name->Extension);
    FltReleaseFileNameInformation(name);
    if (!is) {
        return FLT_PREOP_SUCCESS_NO_CALLBACK;
    }
    Data->IoStatus.Status = STATUS_ACCESS_DENIED;
    Data->IoStatus.Information = 0;
    return FLT_PREOP_COMPLETE;
}

/* Whoever has opened the device may call it still: it must be closed first, unless the unload is mandatory. */
static NTSTATUS ControlUnload(FLT_FILTER_UNLOAD_FLAGS Flags)
{
    BOOLEAN isOpen;

    ExAcquireFastMutex(&gLock);
    isOpen = gIsOpen;
    gIsEnding = !isOpen || FlagOn(Flags, FLTFL_FILTER_UNLOAD_MANDATORY);
    ExReleaseFastMutex(&gLock);
    if (isOpen && !FlagOn(Flags, FLTFL_FILTER_UNLOAD_MANDATORY)) {
        return STATUS_FLT_DO_NOT_DETACH;
    }
    FltUnregisterFilter(gFilterHandle);
    DeleteControlDevice();
    return STATUS_SUCCESS;
}

static CONST FLT_OPERATION_REGISTRATION Operations[] = {{IRP_MJ_CREATE, 0, ControlPreCreate, NULL}, {IRP_MJ_OPERATION_END}};

static CONST FLT_REGISTRATION Registration = {
    .Size = sizeof(FLT_REGISTRATION), .Version = FLT_REGISTRATION_VERSION, .OperationRegistration = Operations, .FilterUnloadCallback = ControlUnload};

NTSTATUS DriverEntry(PDRIVER_OBJECT DriverObject, PUNICODE_STRING RegistryPath)
{
    NTSTATUS status;

    UNREFERENCED_PARAMETER(RegistryPath);
    ExInitializeFastMutex(&gLock);
    status = CreateControlDevice(DriverObject);
    if (!NT_SUCCESS(status)) {
        return status;
    }
    status = FltRegisterFilter(DriverObject, &Registration, &gFilterHandle);
    if (NT_SUCCESS(status)) {
        status = FltStartFiltering(gFilterHandle);
        if (!NT_SUCCESS(status)) {
            FltUnregisterFilter(gFilterHandle);
        }
    }
    if (!NT_SUCCESS(status)) {
        DeleteControlDevice();
    }
    return status;
}
