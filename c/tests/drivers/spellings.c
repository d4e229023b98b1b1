/* A filter that takes names beyond ASCII as Windows does: it compares letters of Latin, Greek and Cyrillic by their case, and says each name that is opened, with how long it is. */
#include <fltKernel.h>

static PFLT_FILTER gFilter;

/* ---- Letters. */
static VOID Compare(_In_ PCWSTR One, _In_ PCWSTR Other)
{
    UNICODE_STRING one, other, upper = {0}, lower = {0};
    NTSTATUS status;

    RtlInitUnicodeString(&one, One);
    RtlInitUnicodeString(&other, Other);
    status = RtlUpcaseUnicodeString(&upper, &one, TRUE);
    if (!NT_SUCCESS(status)) {
        return;
    }
    status = RtlDowncaseUnicodeString(&lower, &other, TRUE);
    DbgPrint("%wZ and %wZ: equal %u, %u; upper %wZ, lower %wZ, expression %u\n", &one, &other, RtlEqualUnicodeString(&one, &other, TRUE), RtlEqualUnicodeString(&one, &other, FALSE), &upper, &lower,
             FsRtlIsNameInExpression(&upper, &other, TRUE, NULL));
    RtlFreeUnicodeString(&upper);
    if (NT_SUCCESS(status)) {
        RtlFreeUnicodeString(&lower);
    }
}

static VOID Letters(VOID)
{
    Compare(L"\x00e4\x00f8\x00fe\x00ff", L"\x00c4\x00d8\x00de\x0178");
    Compare(L"\x03c9\x03bc\x03ad\x03c2", L"\x03a9\x039c\x0388\x03a3");
    Compare(L"\x0436\x0451\x045f", L"\x0416\x0401\x040f");
    Compare(L"stra\x00df" L"e", L"STRASSE");
    Compare(L"\x0161\x017e\x0151", L"\x0160\x017d\x0150");
    Compare(L"\x00f7\x00d7", L"\x00d7\x00f7");
    DbgPrint("%04x %04x %04x\n", RtlUpcaseUnicodeChar(0x00b5), RtlUpcaseUnicodeChar(0x0131), RtlDowncaseUnicodeChar(0x03a3));
}

/* ---- Names. */
static VOID OpenByOther(_In_ PCFLT_RELATED_OBJECTS FltObjects)
{
    UNICODE_STRING name = RTL_CONSTANT_STRING(L"\\Device\\v0\\\x00c4\x00d6.txt");
    OBJECT_ATTRIBUTES attributes;
    IO_STATUS_BLOCK answered;
    HANDLE handle;
    NTSTATUS status;

    InitializeObjectAttributes(&attributes, &name, OBJ_KERNEL_HANDLE | OBJ_CASE_INSENSITIVE, NULL, NULL);
    status = FltCreateFile(FltObjects->Filter, FltObjects->Instance, &handle, FILE_READ_ATTRIBUTES, &attributes, &answered, NULL, FILE_ATTRIBUTE_NORMAL, FILE_SHARE_READ | FILE_SHARE_WRITE | FILE_SHARE_DELETE,
                           FILE_OPEN, 0, NULL, 0, 0);
    DbgPrint("opened by itself: %08x\n", status);
    if (NT_SUCCESS(status)) {
        FltClose(handle);
    }
}

static FLT_POSTOP_CALLBACK_STATUS PostCreate(_Inout_ PFLT_CALLBACK_DATA Data, _In_ PCFLT_RELATED_OBJECTS FltObjects, _In_opt_ PVOID CompletionContext, _In_ FLT_POST_OPERATION_FLAGS Flags)
{
    PFLT_FILE_NAME_INFORMATION name;
    UNICODE_STRING probe = RTL_CONSTANT_STRING(L"\\probe");

    UNREFERENCED_PARAMETER(CompletionContext);
    UNREFERENCED_PARAMETER(Flags);
    if (!NT_SUCCESS(Data->IoStatus.Status)) {
        return FLT_POSTOP_FINISHED_PROCESSING;
    }
    if (RtlEqualUnicodeString(&FltObjects->FileObject->FileName, &probe, TRUE)) {
        OpenByOther(FltObjects);
    } else if (NT_SUCCESS(FltGetFileNameInformation(Data, FLT_FILE_NAME_NORMALIZED | FLT_FILE_NAME_QUERY_DEFAULT, &name))) {
        if (NT_SUCCESS(FltParseFileNameInformation(name))) {
            DbgPrint("%wZ, %u bytes, ends in %wZ; asked for as %wZ\n", &name->Name, name->Name.Length, &name->Extension, &FltObjects->FileObject->FileName);
        }
        FltReleaseFileNameInformation(name);
    }
    return FLT_POSTOP_FINISHED_PROCESSING;
}

static NTSTATUS Unload(_In_ FLT_FILTER_UNLOAD_FLAGS Flags)
{
    UNREFERENCED_PARAMETER(Flags);
    FltUnregisterFilter(gFilter);
    return STATUS_SUCCESS;
}

static const FLT_OPERATION_REGISTRATION Callbacks[] = {{IRP_MJ_CREATE, 0, NULL, PostCreate}, {IRP_MJ_OPERATION_END}};
static const FLT_REGISTRATION Registration = {sizeof(FLT_REGISTRATION), FLT_REGISTRATION_VERSION, 0, NULL, Callbacks, Unload};

NTSTATUS DriverEntry(_In_ PDRIVER_OBJECT DriverObject, _In_ PUNICODE_STRING RegistryPath)
{
    NTSTATUS status = FltRegisterFilter(DriverObject, &Registration, &gFilter);

    UNREFERENCED_PARAMETER(RegistryPath);
    if (NT_SUCCESS(status)) {
        Letters();
        status = FltStartFiltering(gFilter);
    }
    return status;
}
