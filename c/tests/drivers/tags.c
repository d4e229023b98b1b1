/* A filter that tags files as its own, shows the tags that creates come upon, and opens its own tagged files itself. */
#include <fltKernel.h>

#define OWN_TAG 0x00001234

static PFLT_FILTER gFilter;
static GUID gOwn = {0x11223344, 0x5566, 0x7788, {1, 2, 3, 4, 5, 6, 7, 8}};
static GUID gOther = {0x11223344, 0x5566, 0x7788, {8, 7, 6, 5, 4, 3, 2, 1}};

/* A file of a name with `own` at its end is opened as what it is, and not as what its tag says. */
static FLT_PREOP_CALLBACK_STATUS PreCreate(_Inout_ PFLT_CALLBACK_DATA Data, _In_ PCFLT_RELATED_OBJECTS FltObjects, _Flt_CompletionContext_Outptr_ PVOID *CompletionContext)
{
    PUNICODE_STRING name = &FltObjects->FileObject->FileName;
    USHORT letters = name->Length / sizeof(WCHAR);

    UNREFERENCED_PARAMETER(CompletionContext);
    if (letters >= 3 && RtlCompareMemory(&name->Buffer[letters - 3], L"own", 3 * sizeof(WCHAR)) == 3 * sizeof(WCHAR)) {
        Data->Iopb->Parameters.Create.Options |= FILE_OPEN_REPARSE_POINT;
        FltSetCallbackDataDirty(Data);
    }
    return FLT_PREOP_SUCCESS_WITH_CALLBACK;
}

static FLT_POSTOP_CALLBACK_STATUS PostCreate(_Inout_ PFLT_CALLBACK_DATA Data, _In_ PCFLT_RELATED_OBJECTS FltObjects, _In_opt_ PVOID CompletionContext, _In_ FLT_POST_OPERATION_FLAGS Flags)
{
    UNREFERENCED_PARAMETER(CompletionContext);
    UNREFERENCED_PARAMETER(Flags);
    if (Data->TagData != NULL) {
        DbgPrint("%wZ: status %08x information %08x tag %08x data %u unparsed %u\n", &FltObjects->FileObject->FileName, Data->IoStatus.Status, (ULONG)Data->IoStatus.Information,
                 Data->TagData->FileTag, Data->TagData->TagDataLength, Data->TagData->UnparsedNameLength);
    }
    return FLT_POSTOP_FINISHED_PROCESSING;
}

static FLT_PREOP_CALLBACK_STATUS PreFlush(_Inout_ PFLT_CALLBACK_DATA Data, _In_ PCFLT_RELATED_OBJECTS FltObjects, _Flt_CompletionContext_Outptr_ PVOID *CompletionContext)
{
    PFILE_OBJECT file = FltObjects->FileObject;
    PFLT_INSTANCE instance = FltObjects->Instance;

    UNREFERENCED_PARAMETER(Data);
    UNREFERENCED_PARAMETER(CompletionContext);
    DbgPrint("untagged: %08x\n", FltUntagFile(instance, file, OWN_TAG, &gOwn));
    DbgPrint("no GUID: %08x\n", FltTagFile(instance, file, OWN_TAG, NULL, "abc", 3));
    DbgPrint("tagged: %08x\n", FltTagFile(instance, file, OWN_TAG, &gOwn, "abc", 3));
    DbgPrint("another's tag: %08x\n", FltTagFile(instance, file, OWN_TAG + 1, &gOwn, "abc", 3));
    DbgPrint("another's GUID: %08x\n", FltUntagFile(instance, file, OWN_TAG, &gOther));
    DbgPrint("exchanged: %08x\n", FltTagFileEx(instance, file, IO_REPARSE_TAG_CLOUD, NULL, "defg", 4, OWN_TAG, &gOwn, 0));
    DbgPrint("none any more: %08x\n", FltUntagFile(instance, file, OWN_TAG, &gOwn));
    return FLT_PREOP_SUCCESS_NO_CALLBACK;
}

static NTSTATUS Unload(_In_ FLT_FILTER_UNLOAD_FLAGS Flags)
{
    UNREFERENCED_PARAMETER(Flags);
    FltUnregisterFilter(gFilter);
    return STATUS_SUCCESS;
}

static const FLT_OPERATION_REGISTRATION Callbacks[] = {{IRP_MJ_CREATE, 0, PreCreate, PostCreate}, {IRP_MJ_FLUSH_BUFFERS, 0, PreFlush, NULL}, {IRP_MJ_OPERATION_END}};
static const FLT_REGISTRATION Registration = {sizeof(FLT_REGISTRATION), FLT_REGISTRATION_VERSION, 0, NULL, Callbacks, Unload};

NTSTATUS DriverEntry(_In_ PDRIVER_OBJECT DriverObject, _In_ PUNICODE_STRING RegistryPath)
{
    NTSTATUS status;

    UNREFERENCED_PARAMETER(RegistryPath);
    status = FltRegisterFilter(DriverObject, &Registration, &gFilter);
    if (NT_SUCCESS(status)) {
        status = FltStartFiltering(gFilter);
        if (!NT_SUCCESS(status)) {
            FltUnregisterFilter(gFilter);
        }
    }
    return status;
}
