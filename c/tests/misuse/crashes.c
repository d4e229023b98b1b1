/* It crashes in calls that it makes: of no function, of a copy, of the kit, and of one that raises what no block takes. The line is its own, and so are those that led there. */
#include <fltKernel.h>

static PFLT_FILTER gFilter;
static VOID (*volatile gFunction)(VOID);
static PVOID volatile gNothing;

static VOID Use(LONGLONG Which)
{
    UCHAR copy[64];
    UNICODE_STRING name;

    switch (Which) {
    case 0:
        gFunction();
        break;
    case 1:
        RtlCopyMemory(copy, gNothing, (SIZE_T)Which + 40);
        gNothing = (PVOID)(ULONG_PTR)copy[0];
        break;
    case 2:
        RtlInitUnicodeString(&name, (PCWSTR)16);
        break;
    case 3:
        __try {
            ExRaiseStatus(STATUS_DATATYPE_MISALIGNMENT);
        } __except (GetExceptionCode() == STATUS_ACCESS_VIOLATION) {
            gNothing = NULL;
        }
        break;
    }
}

static FLT_PREOP_CALLBACK_STATUS PreRead(PFLT_CALLBACK_DATA Data, PCFLT_RELATED_OBJECTS FltObjects, PVOID *CompletionContext)
{
    UNREFERENCED_PARAMETER(FltObjects);
    UNREFERENCED_PARAMETER(CompletionContext);
    Use(Data->Iopb->Parameters.Read.ByteOffset.QuadPart);
    return FLT_PREOP_SUCCESS_NO_CALLBACK;
}

static CONST FLT_OPERATION_REGISTRATION Callbacks[] = {{IRP_MJ_READ, 0, PreRead}, {IRP_MJ_OPERATION_END}};
static CONST FLT_REGISTRATION Registration = {sizeof(FLT_REGISTRATION), FLT_REGISTRATION_VERSION, 0, NULL, Callbacks};

NTSTATUS DriverEntry(PDRIVER_OBJECT DriverObject, PUNICODE_STRING RegistryPath)
{
    NTSTATUS status;

    UNREFERENCED_PARAMETER(RegistryPath);
    status = FltRegisterFilter(DriverObject, &Registration, &gFilter);
    return NT_SUCCESS(status) ? FltStartFiltering(gFilter) : status;
}
