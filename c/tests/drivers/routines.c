/* Each routine that is declared and isn't modelled is there, and tells its LIMIT: by the tables of the headers themselves. Their bodies look at no argument. */
#include <fltKernel.h>
#include <initguid.h>
#include <bcrypt.h>
#include <intrin.h>
#include <ntimage.h>
#include <TraceLoggingProvider.h>
#include "routines.tmh"

typedef ULONG_PTR ROUTINE(ULONG_PTR, ULONG_PTR, ULONG_PTR, ULONG_PTR);

#define KZ_ROUTINE(type, answer, message, name, ...) (PVOID)name,
static PVOID gRoutines[] = {
#include <kzroutines.h>
#include <kzfltroutines.h>
#include <kzbcryptroutines.h>
};
#undef KZ_ROUTINE

static PFLT_FILTER gFilterHandle;
static CONST FLT_OPERATION_REGISTRATION Callbacks[] = {{IRP_MJ_OPERATION_END}};
static CONST FLT_REGISTRATION Registration = {sizeof(FLT_REGISTRATION), FLT_REGISTRATION_VERSION, 0, NULL, Callbacks};

/* What is modelled beside them. */
static VOID ShowRuntime(VOID)
{
    RTL_RUN_ONCE once = RTL_RUN_ONCE_INIT;
    SID_IDENTIFIER_AUTHORITY authority = {SECURITY_NT_AUTHORITY};
    UCHAR room[SECURITY_MAX_SID_SIZE];
    UNICODE_STRING path = RTL_CONSTANT_STRING(L"\\one\\two\\three"), first, rest;
    LARGE_INTEGER time;
    CHAR utf8[8];
    PVOID context = NULL;
    NTSTATUS status;
    REGHANDLE provider;
    ULONG value, count;

    RtlInitializeSid(room, &authority, 1);
    *RtlSubAuthoritySid(room, 0) = SECURITY_LOCAL_SYSTEM_RID;
    DbgPrint("sid of %u bytes, %u\n", RtlLengthSid(room), RtlValidSid(room));
    FsRtlDissectName(path, &first, &rest);
    DbgPrint("%wZ, %wZ\n", &first, &rest);
    RtlSecondsSince1970ToTime(86400, &time);
    DbgPrint("%u %I64d\n", RtlTimeToSecondsSince1970(&time, &value), time.QuadPart);
    DbgPrint("%08x\n", RtlCrc32("123456789", 9, 0));
    RtlCharToInteger("0x1F", 0, &value);
    RtlUnicodeToUTF8N(utf8, sizeof(utf8), &count, L"\x20ac", sizeof(WCHAR));
    DbgPrint("%u, %u bytes %02x\n", value, count, (UCHAR)utf8[0]);
    DbgPrint("0x%08x", RtlRunOnceBeginInitialize(&once, 0, &context));
    DbgPrint(" 0x%08x", RtlRunOnceComplete(&once, 0, (PVOID)0x40));
    status = RtlRunOnceBeginInitialize(&once, 0, &context);
    DbgPrint(" 0x%08x %u\n", status, context == (PVOID)0x40);
    DbgPrint("%u %u %u\n", _byteswap_ushort(0x1234), memcpy_s(utf8, 1, "ab", 2), _wtoi(L"-7") == -7);
    status = EtwRegister((LPCGUID)room, NULL, NULL, &provider);
    DbgPrint("0x%08x 0x%08x", status, EtwSetInformation(provider, EventProviderSetTraits, room, sizeof(room)));
    DbgPrint(" 0x%08x 0x%08x\n", EtwWriteString(provider, 0, 0, NULL, L"nobody listens"), EtwWriteEx(provider, (PCEVENT_DESCRIPTOR)room, 0, 0, NULL, NULL, 0, NULL));
    EtwUnregister(provider);
}

NTSTATUS DriverEntry(PDRIVER_OBJECT DriverObject, PUNICODE_STRING RegistryPath)
{
    ULONG i;
    NTSTATUS status;

    WPP_INIT_TRACING(DriverObject, RegistryPath);
    DoTraceMessage(FLAG_NONE, "%d routines", i);
    for (i = 0; i < sizeof(gRoutines) / sizeof(gRoutines[0]); i++) {
        ((ROUTINE *)gRoutines[i])(0, 0, 0, 0);
    }
    DbgPrint("%u routines\n", i);
    ShowRuntime();
    status = FltRegisterFilter(DriverObject, &Registration, &gFilterHandle);
    WPP_CLEANUP(DriverObject);
    return NT_SUCCESS(status) ? FltStartFiltering(gFilterHandle) : status;
}
