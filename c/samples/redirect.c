/* A redirector: what is opened below one folder is opened below another, by STATUS_REPARSE. The registry has both as From and To, as \From and \To of the volume. */
#include <fltKernel.h>

#define REDIRECT_TAG 'ridR'

typedef struct _REDIRECT_FOLDER {
    USHORT Length; /* in bytes */
    WCHAR Name[128];
} REDIRECT_FOLDER, *PREDIRECT_FOLDER;

PFLT_FILTER gFilterHandle;
static REDIRECT_FOLDER gFrom;
static REDIRECT_FOLDER gTo;

/* ---- The registry. */
static NTSTATUS RedirectReadValue(_In_ HANDLE Key, _In_ PCWSTR Name, _Out_ PREDIRECT_FOLDER Folder)
{
    UCHAR room[sizeof(KEY_VALUE_PARTIAL_INFORMATION) + sizeof(Folder->Name)];
    PKEY_VALUE_PARTIAL_INFORMATION value = (PKEY_VALUE_PARTIAL_INFORMATION)room;
    UNICODE_STRING name;
    ULONG length;
    NTSTATUS status;

    RtlInitUnicodeString(&name, Name);
    status = ZwQueryValueKey(Key, &name, KeyValuePartialInformation, value, sizeof(room), &length);
    if (!NT_SUCCESS(status)) {
        return status;
    }
    if (value->Type != REG_SZ || value->DataLength < 2 * sizeof(WCHAR) || value->DataLength > sizeof(Folder->Name)) {
        return STATUS_INVALID_PARAMETER;
    }
    RtlCopyMemory(Folder->Name, value->Data, value->DataLength);
    Folder->Length = (USHORT)(value->DataLength - sizeof(WCHAR));
    return STATUS_SUCCESS;
}

static NTSTATUS RedirectReadParameters(_In_ PUNICODE_STRING RegistryPath)
{
    UNICODE_STRING parameters = RTL_CONSTANT_STRING(L"Parameters");
    OBJECT_ATTRIBUTES attributes;
    HANDLE service, key;
    NTSTATUS status;

    InitializeObjectAttributes(&attributes, RegistryPath, OBJ_KERNEL_HANDLE | OBJ_CASE_INSENSITIVE, NULL, NULL);
    status = ZwOpenKey(&service, KEY_READ, &attributes);
    if (!NT_SUCCESS(status)) {
        return status;
    }
    InitializeObjectAttributes(&attributes, &parameters, OBJ_KERNEL_HANDLE | OBJ_CASE_INSENSITIVE, service, NULL);
    status = ZwOpenKey(&key, KEY_READ, &attributes);
    ZwClose(service);
    if (!NT_SUCCESS(status)) {
        return status;
    }
    status = RedirectReadValue(key, L"From", &gFrom);
    if (NT_SUCCESS(status)) {
        status = RedirectReadValue(key, L"To", &gTo);
    }
    ZwClose(key);
    return status;
}

/* ---- Names. */
static BOOLEAN RedirectIsBelow(_In_ PFLT_FILE_NAME_INFORMATION Name, _Out_ PUNICODE_STRING Rest)
{
    UNICODE_STRING from = {gFrom.Length, gFrom.Length, gFrom.Name}, file = Name->Name;

    file.Buffer += Name->Volume.Length / sizeof(WCHAR);
    file.Length -= Name->Volume.Length;
    file.MaximumLength = file.Length;
    if (!RtlPrefixUnicodeString(&from, &file, TRUE) || file.Length == from.Length || file.Buffer[from.Length / sizeof(WCHAR)] != L'\\') {
        return FALSE;
    }
    Rest->Buffer = file.Buffer + from.Length / sizeof(WCHAR);
    Rest->Length = Rest->MaximumLength = file.Length - from.Length;
    return TRUE;
}

/* The file object's name is memory of a pool, which is freed with it: the new one comes in its place. */
static NTSTATUS RedirectReplaceName(_Inout_ PFILE_OBJECT File, _In_ PCUNICODE_STRING Volume, _In_ PCUNICODE_STRING Rest)
{
    UNICODE_STRING to = {gTo.Length, gTo.Length, gTo.Name}, name;

    name.Length = 0;
    name.MaximumLength = Volume->Length + to.Length + Rest->Length;
    name.Buffer = ExAllocatePoolWithTag(PagedPool, name.MaximumLength, REDIRECT_TAG);
    if (name.Buffer == NULL) {
        return STATUS_INSUFFICIENT_RESOURCES;
    }
    RtlCopyUnicodeString(&name, Volume);
    RtlAppendUnicodeStringToString(&name, &to);
    RtlAppendUnicodeStringToString(&name, Rest);
    if (File->FileName.Buffer != NULL) {
        ExFreePool(File->FileName.Buffer);
    }
    File->FileName = name;
    return STATUS_SUCCESS;
}

/* ---- Callbacks. */
static FLT_PREOP_CALLBACK_STATUS RedirectPreCreate(_Inout_ PFLT_CALLBACK_DATA Data, _In_ PCFLT_RELATED_OBJECTS FltObjects, _Flt_CompletionContext_Outptr_ PVOID *CompletionContext)
{
    PFLT_FILE_NAME_INFORMATION name;
    UNICODE_STRING rest;
    FLT_PREOP_CALLBACK_STATUS answer = FLT_PREOP_SUCCESS_NO_CALLBACK;
    NTSTATUS status;

    UNREFERENCED_PARAMETER(CompletionContext);
    PAGED_CODE();
    if (FlagOn(Data->Iopb->OperationFlags, SL_OPEN_PAGING_FILE | SL_OPEN_TARGET_DIRECTORY) || FlagOn(FltObjects->FileObject->Flags, FO_VOLUME_OPEN) ||
        FlagOn(Data->Iopb->Parameters.Create.Options, FILE_OPEN_BY_FILE_ID)) {
        return answer;
    }
    status = FltGetFileNameInformation(Data, FLT_FILE_NAME_OPENED | FLT_FILE_NAME_QUERY_DEFAULT, &name);
    if (!NT_SUCCESS(status)) {
        return answer;
    }
    if (RedirectIsBelow(name, &rest)) {
        status = RedirectReplaceName(FltObjects->FileObject, &name->Volume, &rest);
        if (NT_SUCCESS(status)) {
            DbgPrint("Redirect: %wZ becomes %wZ\n", &name->Name, &FltObjects->FileObject->FileName);
            status = STATUS_REPARSE;
        }
        Data->IoStatus.Status = status;
        Data->IoStatus.Information = status == STATUS_REPARSE ? IO_REPARSE : 0;
        answer = FLT_PREOP_COMPLETE;
    }
    FltReleaseFileNameInformation(name);
    return answer;
}

static NTSTATUS RedirectQueryTeardown(_In_ PCFLT_RELATED_OBJECTS FltObjects, _In_ FLT_INSTANCE_QUERY_TEARDOWN_FLAGS Flags)
{
    UNREFERENCED_PARAMETER(FltObjects);
    UNREFERENCED_PARAMETER(Flags);
    return STATUS_SUCCESS;
}

static NTSTATUS RedirectUnload(_In_ FLT_FILTER_UNLOAD_FLAGS Flags)
{
    UNREFERENCED_PARAMETER(Flags);
    FltUnregisterFilter(gFilterHandle);
    return STATUS_SUCCESS;
}

static CONST FLT_OPERATION_REGISTRATION Operations[] = {
    {IRP_MJ_CREATE, 0, RedirectPreCreate, NULL},
    {IRP_MJ_OPERATION_END},
};

static CONST FLT_REGISTRATION Registration = {
    .Size = sizeof(FLT_REGISTRATION),
    .Version = FLT_REGISTRATION_VERSION,
    .OperationRegistration = Operations,
    .FilterUnloadCallback = RedirectUnload,
    .InstanceQueryTeardownCallback = RedirectQueryTeardown,
};

/* Without parameters the folders are \from and \to. */
NTSTATUS DriverEntry(_In_ PDRIVER_OBJECT DriverObject, _In_ PUNICODE_STRING RegistryPath)
{
    static const UNICODE_STRING from = RTL_CONSTANT_STRING(L"\\from"), to = RTL_CONSTANT_STRING(L"\\to");
    NTSTATUS status;

    if (!NT_SUCCESS(RedirectReadParameters(RegistryPath))) {
        gFrom.Length = from.Length;
        RtlCopyMemory(gFrom.Name, from.Buffer, from.Length);
        gTo.Length = to.Length;
        RtlCopyMemory(gTo.Name, to.Buffer, to.Length);
    }
    status = FltRegisterFilter(DriverObject, &Registration, &gFilterHandle);
    if (!NT_SUCCESS(status)) {
        return status;
    }
    status = FltStartFiltering(gFilterHandle);
    if (!NT_SUCCESS(status)) {
        FltUnregisterFilter(gFilterHandle);
    }
    return status;
}
