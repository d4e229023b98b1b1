/* What Microsoft's compiler and linker put into a driver: a cookie below return addresses, which the system's loader sets, and calls by pointer that go by one of control flow guard's, which stays
 * as it was linked where nobody guards. clang makes the same of -fstack-protector-strong and -cfguard. What comes first here stands in a library of the kit's. */
#include <fltKernel.h>

#define AS_LINKED 0x00002b992ddfa232ULL
enum { WORDS = 0x98 / 8, COOKIE = 0x58 / 8, DISPATCH = 0x78 / 8, COOKIE_FAILED = 2 };

ULONG_PTR __security_cookie = AS_LINKED;
static ULONG gGuarded;

VOID __security_check_cookie(ULONG_PTR Cookie)
{
    if (Cookie != __security_cookie) {
        __asm__ volatile("int $0x29" : : "c"(COOKIE_FAILED));
    }
}

__attribute__((naked)) static VOID Dispatch(VOID)
{
    __asm__("incl %0\n\tjmpq *%%rax" : "+m"(gGuarded));
}
VOID (*const __guard_dispatch_icall_fptr)(VOID) = Dispatch;
const ULONG_PTR _load_config_used[WORDS] = {WORDS * 8, [COOKIE] = (ULONG_PTR)&__security_cookie, [DISPATCH] = (ULONG_PTR)&__guard_dispatch_icall_fptr};

static PFLT_FILTER gFilter;

/* A room has 8 bytes. */
static VOID Fill(volatile UCHAR *Room, ULONG Count)
{
    while (Count-- > 0) {
        *Room++ = 1;
    }
}

static ULONG Sum(ULONG Count)
{
    volatile UCHAR room[8];

    Fill(room, Count);
    return room[0];
}
static ULONG (*volatile gSum)(ULONG) = Sum;

static FLT_PREOP_CALLBACK_STATUS PreRead(PFLT_CALLBACK_DATA Data, PCFLT_RELATED_OBJECTS FltObjects, PVOID *CompletionContext)
{
    UNREFERENCED_PARAMETER(FltObjects);
    UNREFERENCED_PARAMETER(CompletionContext);
    gSum(Data->Iopb->Parameters.Read.Length);
    return FLT_PREOP_SUCCESS_NO_CALLBACK;
}

static NTSTATUS Unload(FLT_FILTER_UNLOAD_FLAGS Flags)
{
    UNREFERENCED_PARAMETER(Flags);
    FltUnregisterFilter(gFilter);
    return STATUS_SUCCESS;
}

static const FLT_OPERATION_REGISTRATION Callbacks[] = {{IRP_MJ_READ, 0, PreRead, NULL}, {IRP_MJ_OPERATION_END}};
static const FLT_REGISTRATION Registration = {sizeof(FLT_REGISTRATION), FLT_REGISTRATION_VERSION, 0, NULL, Callbacks, Unload};

NTSTATUS DriverEntry(PDRIVER_OBJECT DriverObject, PUNICODE_STRING RegistryPath)
{
    NTSTATUS status;

    UNREFERENCED_PARAMETER(RegistryPath);
    gSum(8);
    DbgPrint("cookie: it is %s; calls by the guard's pointer: %u\n", __security_cookie == AS_LINKED ? "as it was linked" : "set", gGuarded);
    status = FltRegisterFilter(DriverObject, &Registration, &gFilter);
    return NT_SUCCESS(status) ? FltStartFiltering(gFilter) : status;
}
