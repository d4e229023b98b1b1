/* Words that Microsoft's compiler takes, or takes otherwise: each is what it is there. A comment with a long word, 5i64 and __FUNCTION__ ": x" stays. */
#include <fltKernel.h>
#include <intrin.h>
#include "dialect.h"

#pragma warning(disable : 4127)

static PFLT_FILTER gFilterHandle;
static long gNumber = -1;
static unsigned long long gLarge = 1ui64 << 40;

static_assert(sizeof(long) == 4, "a long has 32 bits");
static_assert(sizeof(unsigned long int) == 4, "with an int behind it too");
static_assert(sizeof(long long) == 8, "and two of them 64");
C_ASSERT(sizeof(KIND) == 4);
C_ASSERT(sizeof(BITS) == 8); /* fields of two types begin two units */
C_ASSERT(sizeof(struct _LINE) == 64);

static CONST FLT_OPERATION_REGISTRATION Callbacks[] = {{IRP_MJ_OPERATION_END}};
static CONST FLT_REGISTRATION Registration = {sizeof(FLT_REGISTRATION), FLT_REGISTRATION_VERSION, 0, NULL, Callbacks};

static __forceinline ULONG
Low (
    _In_ ULONG64 Value
    )
{
    __pragma(warning(suppress : 4242))
    return (ULONG)Value;
}

_Function_class_(DRIVER_INITIALIZE)
NTSTATUS
DriverEntry (
    _In_ PDRIVER_OBJECT DriverObject,
    _In_ PUNICODE_STRING RegistryPath
    )
{
    KIND kind = KindWrite;
    ULONG index = 0;
    NTSTATUS status;

    UNREFERENCED_PARAMETER(RegistryPath);
    DbgPrint(__FUNCTION__ ": %d %I64d %s\n", kind, 5i64 + gLarge, "a long text");
    DbgPrint("%s %ld %08x\n", __FUNCTION__, gNumber, Low(gMask));
    LOG("of a macro\n");
    _BitScanForward64(&index, gLarge);
    DbgPrint("%u %u\n", index, gNumber < 0i32);
    status = FltRegisterFilter(DriverObject, &Registration, &gFilterHandle);
    return NT_SUCCESS(status) ? FltStartFiltering(gFilterHandle) : status;
}
