/* Blocks of __try and __finally in C++, where no header of its library is included. */
#include <fltKernel.h>

static PFLT_FILTER gFilterHandle;

static bool Try(bool IsLeft)
{
    bool isDone = false;

    __try {
        if (IsLeft) {
            __leave;
        }
        isDone = true;
    } __finally {
        DbgPrint("finally %u\n", isDone);
    }
    return isDone;
}

static const FLT_OPERATION_REGISTRATION Callbacks[] = {{IRP_MJ_OPERATION_END}};
static const FLT_REGISTRATION Registration = {sizeof(FLT_REGISTRATION), FLT_REGISTRATION_VERSION, 0, nullptr, Callbacks};

extern "C" NTSTATUS DriverEntry(PDRIVER_OBJECT DriverObject, PUNICODE_STRING RegistryPath)
{
    UNREFERENCED_PARAMETER(RegistryPath);
    DbgPrint("%u\n", Try(false));
    DbgPrint("%u\n", Try(true));
    NTSTATUS status = FltRegisterFilter(DriverObject, &Registration, &gFilterHandle);
    return NT_SUCCESS(status) ? FltStartFiltering(gFilterHandle) : status;
}
