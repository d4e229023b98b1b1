/* Its registration is refused: a major function is registered three times, and another is none. */
#include <fltKernel.h>

static FLT_PREOP_CALLBACK_STATUS PreAny(PFLT_CALLBACK_DATA Data, PCFLT_RELATED_OBJECTS FltObjects, PVOID *CompletionContext)
{
    UNREFERENCED_PARAMETER(Data);
    UNREFERENCED_PARAMETER(FltObjects);
    UNREFERENCED_PARAMETER(CompletionContext);
    return FLT_PREOP_SUCCESS_NO_CALLBACK;
}

static const FLT_OPERATION_REGISTRATION operations[] = {
    {IRP_MJ_CREATE, 0, PreAny}, {IRP_MJ_CREATE, 0, PreAny}, {IRP_MJ_CREATE, 0, PreAny}, {0x48, 0, PreAny}, {IRP_MJ_OPERATION_END},
};
static const FLT_REGISTRATION registration = {.Size = sizeof registration, .Version = FLT_REGISTRATION_VERSION, .OperationRegistration = operations};

NTSTATUS DriverEntry(PDRIVER_OBJECT DriverObject, PUNICODE_STRING RegistryPath)
{
    PFLT_FILTER filter;

    UNREFERENCED_PARAMETER(RegistryPath);
    return FltRegisterFilter(DriverObject, &registration, &filter);
}
