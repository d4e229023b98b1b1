/* What the kernel's code may do and a program's mustn't, and what the processor refuses both: each read asks for one. */
#include <fltKernel.h>

static PFLT_FILTER gFilter;
static UCHAR gBytes[64];

static VOID Do(ULONG Which)
{
    ULONG64 value = 1, debug = 0;

    switch (Which) {
    case 0: /* Debug registers: what was written last. */
        __asm__ volatile("mov %%dr7, %0\n mov %1, %%dr0\n mov %%dr0, %1" : "=r"(debug), "+r"(value));
        DbgPrint("processor: dr7 %I64x, dr0 %I64x\n", debug, value);
        break;
    case 1: /* A debugger is asked. */
        __asm__ volatile("int $0x2d\n nop" : : "a"(0));
        DbgPrint("processor: behind int 2dh\n");
        break;
    case 2: /* Memory that isn't aligned as the instruction wants it. */
        __asm__ volatile("movaps %0, %%xmm0" : : "m"(gBytes[1]) : "xmm0");
        DbgPrint("processor: never\n");
        break;
    case 3: /* The kernel may. */
        __asm__ volatile("mov %%cr0, %0" : "=r"(value));
        DbgPrint("processor: never\n");
        break;
    }
}

static FLT_PREOP_CALLBACK_STATUS PreRead(PFLT_CALLBACK_DATA Data, PCFLT_RELATED_OBJECTS FltObjects, PVOID *CompletionContext)
{
    UNREFERENCED_PARAMETER(FltObjects);
    UNREFERENCED_PARAMETER(CompletionContext);
    Do(Data->Iopb->Parameters.Read.ByteOffset.LowPart);
    return FLT_PREOP_SUCCESS_NO_CALLBACK;
}

static const FLT_OPERATION_REGISTRATION Callbacks[] = {{IRP_MJ_READ, 0, PreRead, NULL}, {IRP_MJ_OPERATION_END}};
static const FLT_REGISTRATION Registration = {sizeof(FLT_REGISTRATION), FLT_REGISTRATION_VERSION, 0, NULL, Callbacks};

NTSTATUS DriverEntry(PDRIVER_OBJECT DriverObject, PUNICODE_STRING RegistryPath)
{
    NTSTATUS status = FltRegisterFilter(DriverObject, &Registration, &gFilter);

    UNREFERENCED_PARAMETER(RegistryPath);
    return NT_SUCCESS(status) ? FltStartFiltering(gFilter) : status;
}
