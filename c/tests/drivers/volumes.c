/* Volumes and instances as the filter manager shows them: properties, names and their parts, setup's flags, a listing's buffer, objects by name. */
#include <fltKernel.h>

#define SHOW(e) DbgPrint("%s = %d\n", #e, (int)(e))

PFLT_FILTER gFilterHandle;

static VOID ShowVolume(PFLT_VOLUME Volume)
{
    UCHAR room[sizeof(FLT_VOLUME_PROPERTIES) + 256];
    PFLT_VOLUME_PROPERTIES properties = (PFLT_VOLUME_PROPERTIES)room;
    PDEVICE_OBJECT device;
    UNICODE_STRING name;
    BOOLEAN isWritable;
    ULONG length;
    NTSTATUS status;

    if (NT_SUCCESS(FltGetVolumeProperties(Volume, properties, sizeof(room), &length))) {
        DbgPrint("%wZ %wZ %wZ, sector %u, device %u\n", &properties->FileSystemDriverName, &properties->FileSystemDeviceName, &properties->RealDeviceName,
                 properties->SectorSize, properties->DeviceType);
    }
    status = FltGetDiskDeviceObject(Volume, &device);
    if (NT_SUCCESS(status)) {
        IoVolumeDeviceToDosName(device, &name);
        DbgPrint("disk %wZ\n", &name);
        ExFreePool(name.Buffer);
        ObDereferenceObject(device);
    } else {
        DbgPrint("no disk: 0x%08x\n", status);
    }
    FltIsVolumeWritable(Volume, &isWritable);
    SHOW(isWritable);
}

static NTSTATUS InstanceSetup(PCFLT_RELATED_OBJECTS FltObjects, FLT_INSTANCE_SETUP_FLAGS Flags, DEVICE_TYPE VolumeDeviceType,
                              FLT_FILESYSTEM_TYPE VolumeFilesystemType)
{
    PFLT_VOLUME volume;
    PFLT_INSTANCE top;
    UNICODE_STRING name = RTL_CONSTANT_STRING(L"\\Device\\v0");

    DbgPrint("setup flags %u, device %u, file system %u\n", Flags, VolumeDeviceType, VolumeFilesystemType);
    ShowVolume(FltObjects->Volume);
    if (NT_SUCCESS(FltGetVolumeFromName(FltObjects->Filter, &name, &volume))) {
        SHOW(volume == FltObjects->Volume);
        SHOW(FltGetTopInstance(volume, &top) == STATUS_SUCCESS);
        if (top != NULL) {
            FltObjectDereference(top);
        }
        FltObjectDereference(volume);
    }
    return VolumeFilesystemType == FLT_FSTYPE_FAT ? STATUS_FLT_DO_NOT_ATTACH : STATUS_SUCCESS;
}

static FLT_PREOP_CALLBACK_STATUS PreCreate(PFLT_CALLBACK_DATA Data, PCFLT_RELATED_OBJECTS FltObjects, PVOID *CompletionContext)
{
    PFLT_FILE_NAME_INFORMATION info;

    UNREFERENCED_PARAMETER(FltObjects);
    UNREFERENCED_PARAMETER(CompletionContext);
    if (NT_SUCCESS(FltGetFileNameInformation(Data, FLT_FILE_NAME_NORMALIZED | FLT_FILE_NAME_QUERY_DEFAULT, &info))) {
        FltParseFileNameInformation(info);
        DbgPrint("name '%wZ' volume '%wZ' parent '%wZ' final '%wZ' extension '%wZ' stream '%wZ'\n", &info->Name, &info->Volume, &info->ParentDir,
                 &info->FinalComponent, &info->Extension, &info->Stream);
        FltReleaseFileNameInformation(info);
    }
    return FLT_PREOP_SUCCESS_WITH_CALLBACK;
}

static FLT_POSTOP_CALLBACK_STATUS PostCreate(PFLT_CALLBACK_DATA Data, PCFLT_RELATED_OBJECTS FltObjects, PVOID CompletionContext, FLT_POST_OPERATION_FLAGS Flags)
{
    BOOLEAN isDirectory;

    UNREFERENCED_PARAMETER(CompletionContext);
    UNREFERENCED_PARAMETER(Flags);
    if (NT_SUCCESS(Data->IoStatus.Status)) {
        FltIsDirectory(FltObjects->FileObject, FltObjects->Instance, &isDirectory);
        SHOW(isDirectory);
        SHOW(FltObjects->FileObject->WriteAccess && FltObjects->FileObject->FsContext != NULL);
        SHOW(FltSupportsStreamContexts(FltObjects->FileObject) && FltSupportsFileContexts(FltObjects->FileObject));
    }
    return FLT_POSTOP_FINISHED_PROCESSING;
}

static FLT_PREOP_CALLBACK_STATUS PreList(PFLT_CALLBACK_DATA Data, PCFLT_RELATED_OBJECTS FltObjects, PVOID *CompletionContext)
{
    BOOLEAN isDirectory;

    UNREFERENCED_PARAMETER(CompletionContext);
    FltIsDirectory(FltObjects->FileObject, FltObjects->Instance, &isDirectory);
    SHOW(isDirectory);
    SHOW(Data->Iopb->Parameters.DirectoryControl.QueryDirectory.Length);
    SHOW(Data->Iopb->Parameters.DirectoryControl.QueryDirectory.DirectoryBuffer != NULL);
    SHOW(Data->Iopb->Parameters.DirectoryControl.QueryDirectory.FileInformationClass == FileNamesInformation);
    DbgPrint("%s\n", FltGetIrpName(Data->Iopb->MajorFunction));
    return FLT_PREOP_SUCCESS_NO_CALLBACK;
}

static NTSTATUS Unload(FLT_FILTER_UNLOAD_FLAGS Flags)
{
    UNREFERENCED_PARAMETER(Flags);
    FltUnregisterFilter(gFilterHandle);
    return STATUS_SUCCESS;
}

/* Of 28 operations the manager has nine: to register the others is legal, and means nothing. */
CONST FLT_OPERATION_REGISTRATION Callbacks[] = {{IRP_MJ_CREATE, 0, PreCreate, PostCreate},
                                                {IRP_MJ_CREATE_NAMED_PIPE, 0, PreCreate, NULL},
                                                {IRP_MJ_LOCK_CONTROL, 0, PreCreate, NULL},
                                                {IRP_MJ_NETWORK_QUERY_OPEN, FLTFL_OPERATION_REGISTRATION_SKIP_PAGING_IO, PreCreate, NULL},
                                                {IRP_MJ_ACQUIRE_FOR_SECTION_SYNCHRONIZATION, 0, PreCreate, NULL},
                                                {IRP_MJ_VOLUME_MOUNT, 0, PreCreate, NULL},
                                                {IRP_MJ_DIRECTORY_CONTROL, 0, PreList, NULL},
                                                {IRP_MJ_OPERATION_END}};
CONST FLT_REGISTRATION Registration = {sizeof(FLT_REGISTRATION), FLT_REGISTRATION_VERSION, 0, NULL, Callbacks, Unload, InstanceSetup};

NTSTATUS DriverEntry(PDRIVER_OBJECT DriverObject, PUNICODE_STRING RegistryPath)
{
    NTSTATUS status = FltRegisterFilter(DriverObject, &Registration, &gFilterHandle);

    UNREFERENCED_PARAMETER(RegistryPath);
    return NT_SUCCESS(status) ? FltStartFiltering(gFilterHandle) : status;
}
