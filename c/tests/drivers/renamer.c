/* A filter that leads creates elsewhere without STATUS_REPARSE: what is opened as `\from..` is opened below it, and in the file system, as `\into..`. Each instance says which names it sees; the one
 * called `leads` puts the other name there, and `holds` pends each create before it does. */
#include <fltKernel.h>

static PFLT_FILTER gFilter;

static BOOLEAN IsCalled(_In_ PCFLT_RELATED_OBJECTS FltObjects, _In_ PCWSTR Altitude)
{
    UCHAR room[256];
    PINSTANCE_FULL_INFORMATION full = (PINSTANCE_FULL_INFORMATION)room;
    ULONG length;

    return NT_SUCCESS(FltGetInstanceInformation(FltObjects->Instance, InstanceFullInformation, room, sizeof(room), &length)) && wcsncmp((PWCHAR)(room + full->AltitudeBufferOffset), Altitude, 3) == 0;
}

static VOID Lead(_Inout_ PFILE_OBJECT File)
{
    WCHAR name[64];
    USHORT length = File->FileName.Length;

    if (length < 5 * sizeof(WCHAR) || length > sizeof(name) || wcsncmp(File->FileName.Buffer, L"\\from", 5) != 0) {
        return;
    }
    RtlCopyMemory(name, File->FileName.Buffer, length);
    RtlCopyMemory(name, L"\\into", 5 * sizeof(WCHAR));
    if (name[5 < length / sizeof(WCHAR) ? 5 : 0] == L'?') {
        name[0] = L'x';
    }
    IoReplaceFileObjectName(File, name, length);
}

static VOID Later(_In_ PFLT_GENERIC_WORKITEM FltWorkItem, _In_ PVOID FltObject, _In_opt_ PVOID Context)
{
    UNREFERENCED_PARAMETER(FltObject);
    FltCompletePendedPreOperation(Context, FLT_PREOP_SUCCESS_WITH_CALLBACK, (PVOID)(ULONG_PTR)3);
    FltFreeGenericWorkItem(FltWorkItem);
}

static FLT_PREOP_CALLBACK_STATUS PreCreate(_Inout_ PFLT_CALLBACK_DATA Data, _In_ PCFLT_RELATED_OBJECTS FltObjects, _Flt_CompletionContext_Outptr_ PVOID *CompletionContext)
{
    PFLT_GENERIC_WORKITEM item;

    DbgPrint("pre: %wZ\n", &FltObjects->FileObject->FileName);
    if (IsCalled(FltObjects, L"200")) {
        Lead(FltObjects->FileObject);
    } else if (IsCalled(FltObjects, L"150")) {
        Lead(FltObjects->FileObject);
        item = FltAllocateGenericWorkItem();
        if (item != NULL && NT_SUCCESS(FltQueueGenericWorkItem(item, FltObjects->Instance, Later, DelayedWorkQueue, Data))) {
            return FLT_PREOP_PENDING;
        }
    }
    *CompletionContext = (PVOID)(ULONG_PTR)(IsCalled(FltObjects, L"300") ? 1 : 2);
    return IsCalled(FltObjects, L"250") ? FLT_PREOP_SUCCESS_NO_CALLBACK : IsCalled(FltObjects, L"300") ? FLT_PREOP_SYNCHRONIZE : FLT_PREOP_SUCCESS_WITH_CALLBACK;
}

static FLT_POSTOP_CALLBACK_STATUS PostCreate(_Inout_ PFLT_CALLBACK_DATA Data, _In_ PCFLT_RELATED_OBJECTS FltObjects, _In_opt_ PVOID CompletionContext, _In_ FLT_POST_OPERATION_FLAGS Flags)
{
    PFLT_FILE_NAME_INFORMATION name;

    UNREFERENCED_PARAMETER(Flags);
    DbgPrint("post: %wZ, %08x, completion %u\n", &FltObjects->FileObject->FileName, Data->IoStatus.Status, (ULONG)(ULONG_PTR)CompletionContext);
    if (NT_SUCCESS(Data->IoStatus.Status) && NT_SUCCESS(FltGetFileNameInformation(Data, FLT_FILE_NAME_OPENED | FLT_FILE_NAME_QUERY_DEFAULT, &name))) {
        DbgPrint("    named %wZ\n", &name->Name);
        FltReleaseFileNameInformation(name);
    }
    return FLT_POSTOP_FINISHED_PROCESSING;
}

static NTSTATUS QueryTeardown(_In_ PCFLT_RELATED_OBJECTS FltObjects, _In_ FLT_INSTANCE_QUERY_TEARDOWN_FLAGS Flags)
{
    UNREFERENCED_PARAMETER(FltObjects);
    UNREFERENCED_PARAMETER(Flags);
    return STATUS_SUCCESS;
}

static NTSTATUS Unload(_In_ FLT_FILTER_UNLOAD_FLAGS Flags)
{
    UNREFERENCED_PARAMETER(Flags);
    FltUnregisterFilter(gFilter);
    return STATUS_SUCCESS;
}

static const FLT_OPERATION_REGISTRATION Callbacks[] = {{IRP_MJ_CREATE, 0, PreCreate, PostCreate}, {IRP_MJ_OPERATION_END}};
static const FLT_REGISTRATION Registration = {.Size = sizeof(FLT_REGISTRATION), .Version = FLT_REGISTRATION_VERSION, .OperationRegistration = Callbacks, .FilterUnloadCallback = Unload,
                                              .InstanceQueryTeardownCallback = QueryTeardown};

NTSTATUS DriverEntry(_In_ PDRIVER_OBJECT DriverObject, _In_ PUNICODE_STRING RegistryPath)
{
    NTSTATUS status = FltRegisterFilter(DriverObject, &Registration, &gFilter);

    UNREFERENCED_PARAMETER(RegistryPath);
    if (NT_SUCCESS(status)) {
        status = FltStartFiltering(gFilter);
        if (!NT_SUCCESS(status)) {
            FltUnregisterFilter(gFilter);
        }
    }
    return status;
}
