/* Extra create parameters: each instance looks at those of a create. The lower one puts a list into what clients open; the upper one opens the file once more, with a list of its own. */
#include <fltKernel.h>

static PFLT_FILTER gFilter;
static BOOLEAN gIsOpening;
static const GUID Mark = {0x1b2c3d4e, 0x1111, 0x2222, {1, 2, 3, 4, 5, 6, 7, 8}};
static const GUID Other = {0x1b2c3d4f, 0x1111, 0x2222, {1, 2, 3, 4, 5, 6, 7, 8}};

static VOID Cleanup(PVOID Context, LPCGUID Type)
{
    UNREFERENCED_PARAMETER(Type);
    DbgPrint("Ecps: %u is cleaned up\n", *(PULONG)Context);
}

static PECP_LIST MakeList(ULONG Number)
{
    PECP_LIST list;
    PULONG first, second;

    if (!NT_SUCCESS(FltAllocateExtraCreateParameterList(gFilter, 0, &list)))
        return NULL;
    if (NT_SUCCESS(FltAllocateExtraCreateParameter(gFilter, &Mark, sizeof(ULONG), 0, Cleanup, 'pcE1', (PVOID *)&first))) {
        *first = Number;
        if (!NT_SUCCESS(FltInsertExtraCreateParameter(gFilter, list, first)))
            FltFreeExtraCreateParameter(gFilter, first);
    }
    if (NT_SUCCESS(FltAllocateExtraCreateParameter(gFilter, &Other, sizeof(ULONG), 0, NULL, 'pcE2', (PVOID *)&second))) {
        *second = Number + 1;
        if (!NT_SUCCESS(FltInsertExtraCreateParameter(gFilter, list, second)))
            FltFreeExtraCreateParameter(gFilter, second);
    }
    return list;
}

static VOID OpenAgain(PCFLT_RELATED_OBJECTS FltObjects)
{
    UNICODE_STRING path = RTL_CONSTANT_STRING(L"\\Device\\v0\\a");
    IO_DRIVER_CREATE_CONTEXT driver;
    OBJECT_ATTRIBUTES attributes;
    IO_STATUS_BLOCK iosb;
    HANDLE handle;
    PVOID context;
    NTSTATUS status;

    IoInitializeDriverCreateContext(&driver);
    driver.ExtraCreateParameter = MakeList(10);
    if (driver.ExtraCreateParameter == NULL)
        return;
    InitializeObjectAttributes(&attributes, &path, OBJ_KERNEL_HANDLE, NULL, NULL);
    status = FltCreateFileEx2(gFilter, FltObjects->Instance, &handle, NULL, GENERIC_READ, &attributes, &iosb, NULL, 0, 7, FILE_OPEN, 0, NULL, 0, 0, &driver);
    DbgPrint("Ecps: opened again, 0x%08x\n", status);
    if (NT_SUCCESS(status))
        FltClose(handle);
    if (NT_SUCCESS(FltFindExtraCreateParameter(gFilter, driver.ExtraCreateParameter, &Mark, &context, NULL)))
        DbgPrint("Ecps: acknowledged %u\n", FltIsEcpAcknowledged(gFilter, context));
    FltFreeExtraCreateParameterList(gFilter, driver.ExtraCreateParameter);
}

static VOID Look(PFLT_CALLBACK_DATA Data, PECP_LIST List)
{
    PVOID context = NULL;
    ULONG size;
    GUID type;

    UNREFERENCED_PARAMETER(Data);
    while (NT_SUCCESS(FltGetNextExtraCreateParameter(gFilter, List, context, &type, &context, &size)))
        DbgPrint("Ecps: found %u of %u bytes, is it the mark: %u\n", *(PULONG)context, size, RtlCompareMemory(&type, &Mark, sizeof(type)) == sizeof(type));
    if (NT_SUCCESS(FltFindExtraCreateParameter(gFilter, List, &Mark, &context, &size)) && !FltIsEcpFromUserMode(gFilter, context))
        FltAcknowledgeEcp(gFilter, context);
}

static FLT_PREOP_CALLBACK_STATUS PreCreate(PFLT_CALLBACK_DATA Data, PCFLT_RELATED_OBJECTS FltObjects, PVOID *Context)
{
    PECP_LIST list;

    UNREFERENCED_PARAMETER(Context);
    if (!NT_SUCCESS(FltGetEcpListFromCallbackData(gFilter, Data, &list)))
        return FLT_PREOP_SUCCESS_NO_CALLBACK;
    if (list != NULL) {
        Look(Data, list);
    } else if (!gIsOpening) {
        gIsOpening = TRUE;
        OpenAgain(FltObjects);
        list = MakeList(20);
        if (list != NULL && !NT_SUCCESS(FltSetEcpListIntoCallbackData(gFilter, Data, list)))
            FltFreeExtraCreateParameterList(gFilter, list);
        gIsOpening = FALSE;
    }
    return FLT_PREOP_SUCCESS_NO_CALLBACK;
}

static NTSTATUS Unload(FLT_FILTER_UNLOAD_FLAGS Flags)
{
    UNREFERENCED_PARAMETER(Flags);
    FltUnregisterFilter(gFilter);
    return STATUS_SUCCESS;
}

static CONST FLT_OPERATION_REGISTRATION Operations[] = {{IRP_MJ_CREATE, 0, PreCreate, NULL}, {IRP_MJ_OPERATION_END}};
static CONST FLT_REGISTRATION Registration = {
    .Size = sizeof(FLT_REGISTRATION), .Version = FLT_REGISTRATION_VERSION, .OperationRegistration = Operations, .FilterUnloadCallback = Unload};

NTSTATUS DriverEntry(PDRIVER_OBJECT DriverObject, PUNICODE_STRING RegistryPath)
{
    UNREFERENCED_PARAMETER(RegistryPath);
    NTSTATUS status = FltRegisterFilter(DriverObject, &Registration, &gFilter);
    return NT_SUCCESS(status) ? FltStartFiltering(gFilter) : status;
}
