/* IRPs of a device that end in wrong ways: the program is controlctl, whose device this driver has too. */
#include <fltKernel.h>

#include "../../samples/control.h"

static PFLT_FILTER gFilter;
static PDEVICE_OBJECT gDevice;
static UNICODE_STRING gDeviceName = RTL_CONSTANT_STRING(L"\\Device\\Irps");
static UNICODE_STRING gLinkName = RTL_CONSTANT_STRING(L"\\??\\Control");

static NTSTATUS Complete(PIRP Irp, NTSTATUS Status)
{
    Irp->IoStatus.Status = Status;
    IoCompleteRequest(Irp, IO_NO_INCREMENT);
    return Status;
}

static NTSTATUS Open(PDEVICE_OBJECT DeviceObject, PIRP Irp)
{
    (void)DeviceObject;
    return Complete(Irp, STATUS_SUCCESS);
}

/* It is completed with another status than is returned. */
static NTSTATUS Cleanup(PDEVICE_OBJECT DeviceObject, PIRP Irp)
{
    (void)DeviceObject;
    Complete(Irp, STATUS_SUCCESS);
    return STATUS_NOT_SUPPORTED;
}

static NTSTATUS Control(PDEVICE_OBJECT DeviceObject, PIRP Irp)
{
    (void)DeviceObject;
    if (IoGetCurrentIrpStackLocation(Irp)->Parameters.DeviceIoControl.IoControlCode == IOCTL_CONTROL_DENY) {
        Complete(Irp, STATUS_SUCCESS);
        IoCompleteRequest(Irp, IO_NO_INCREMENT); /* twice */
        return STATUS_SUCCESS;
    }
    return STATUS_SUCCESS; /* never */
}

static NTSTATUS Unload(FLT_FILTER_UNLOAD_FLAGS Flags)
{
    (void)Flags;
    IoDeleteSymbolicLink(&gLinkName);
    IoDeleteDevice(gDevice);
    FltUnregisterFilter(gFilter);
    return STATUS_SUCCESS;
}

static const FLT_OPERATION_REGISTRATION operations[] = {{IRP_MJ_OPERATION_END}};
static const FLT_REGISTRATION registration = {
    .Size = sizeof(FLT_REGISTRATION), .Version = FLT_REGISTRATION_VERSION, .OperationRegistration = operations, .FilterUnloadCallback = Unload};

NTSTATUS DriverEntry(PDRIVER_OBJECT DriverObject, PUNICODE_STRING RegistryPath)
{
    (void)RegistryPath;
    NTSTATUS status = IoCreateDevice(DriverObject, 0, &gDeviceName, FILE_DEVICE_UNKNOWN, 0, TRUE, &gDevice);
    if (!NT_SUCCESS(status))
        return status;
    IoCreateSymbolicLink(&gLinkName, &gDeviceName);
    DriverObject->MajorFunction[IRP_MJ_CREATE] = DriverObject->MajorFunction[IRP_MJ_CLOSE] = Open;
    DriverObject->MajorFunction[IRP_MJ_CLEANUP] = Cleanup;
    DriverObject->MajorFunction[IRP_MJ_DEVICE_CONTROL] = Control;
    status = FltRegisterFilter(DriverObject, &registration, &gFilter);
    return NT_SUCCESS(status) ? FltStartFiltering(gFilter) : status;
}
