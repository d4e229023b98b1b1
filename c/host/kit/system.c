/* What a driver asks of the system itself: one processor, no debugger, and no verifier; and the names of what no create brings. */
#include "core/client.h"

#include <initguid.h>

static const LUID_AND_ATTRIBUTES none;
static const SE_EXPORTS exports = {.SeTcbPrivilege = {7, 0},
                             .SeSecurityPrivilege = {8, 0},
                             .SeTakeOwnershipPrivilege = {9, 0},
                             .SeLoadDriverPrivilege = {10, 0},
                             .SeBackupPrivilege = {17, 0},
                             .SeRestorePrivilege = {18, 0},
                             .SeShutdownPrivilege = {19, 0},
                             .SeDebugPrivilege = {20, 0}};
static const BOOLEAN is_enabled = FALSE, is_absent = TRUE;
static const POBJECT_TYPE driver_type = (POBJECT_TYPE)&none;

PSE_EXPORTS SeExports = (PSE_EXPORTS)&exports;
POBJECT_TYPE *IoDriverObjectType = (POBJECT_TYPE *)&driver_type;
PBOOLEAN KdDebuggerEnabled = (PBOOLEAN)&is_enabled, KdDebuggerNotPresent = (PBOOLEAN)&is_absent;
PVOID MmHighestUserAddress = (PVOID)0x00007FFFFFFEFFFFULL;
ULONG_PTR MmUserProbeAddress = MM_USER_PROBE_ADDRESS;

ULONGLONG KeQueryUnbiasedInterruptTime(VOID)
{
    return KeQueryInterruptTime();
}

ULONG KeGetCurrentProcessorNumberEx(PPROCESSOR_NUMBER ProcNumber)
{
    if (ProcNumber)
        *ProcNumber = (PROCESSOR_NUMBER){0, 0, 0};
    return 0;
}

/* There is one processor. */
ULONG KeQueryMaximumProcessorCountEx(USHORT GroupNumber)
{
    (void)GroupNumber;
    return 1;
}

/* There is one processor. */
ULONG KeGetProcessorIndexFromNumber(PPROCESSOR_NUMBER ProcNumber)
{
    (void)ProcNumber;
    return 0;
}

/* Each thread has the priority that the kernel gives first. */
KPRIORITY KeQueryPriorityThread(PKTHREAD Thread)
{
    (void)Thread;
    return 8;
}

/* A thread of the kernel has 24 KB; how much of the host's own stack is left isn't known. */
enum { STACK = 24 * 1024 };

VOID IoGetStackLimits(PULONG_PTR LowLimit, PULONG_PTR HighLimit)
{
    *HighLimit = (ULONG_PTR)__builtin_frame_address(0);
    *LowLimit = *HighLimit - STACK / 2;
}

SIZE_T IoGetRemainingStackSize(VOID)
{
    return STACK / 2;
}

/* The Driver Verifier isn't on. */
LOGICAL MmIsDriverVerifying(PDRIVER_OBJECT DriverObject)
{
    (void)DriverObject;
    return FALSE;
}

/* ---- The system's version, and chance, which is the same in each run. */
NTSTATUS RtlGetVersion(PRTL_OSVERSIONINFOW VersionInformation)
{
    KZ_INSIDE_AS_DRIVER();
    kz_gives(VersionInformation);
    VersionInformation->dwMajorVersion = 10;
    VersionInformation->dwMinorVersion = 0;
    VersionInformation->dwBuildNumber = 19045;
    VersionInformation->dwPlatformId = 2;
    VersionInformation->szCSDVersion[0] = 0;
    if (VersionInformation->dwOSVersionInfoSize >= sizeof(RTL_OSVERSIONINFOEXW)) {
        PRTL_OSVERSIONINFOEXW more = (PRTL_OSVERSIONINFOEXW)VersionInformation;
        more->wServicePackMajor = more->wServicePackMinor = more->wSuiteMask = 0;
        more->wProductType = 1;
    }
    return STATUS_SUCCESS;
}

BOOLEAN PsGetVersion(PULONG MajorVersion, PULONG MinorVersion, PULONG BuildNumber, PUNICODE_STRING CSDVersion)
{
    if (MajorVersion)
        *MajorVersion = 10;
    if (MinorVersion)
        *MinorVersion = 0;
    if (BuildNumber)
        *BuildNumber = 19045;
    if (CSDVersion)
        CSDVersion->Length = 0;
    return FALSE;
}

BOOLEAN RtlIsNtDdiVersionAvailable(ULONG Version)
{
    return Version <= NTDDI_WIN10_RS1;
}

NTSTATUS ExUuidCreate(GUID *Uuid)
{
    KZ_INSIDE_ALONE();
    kz_scheduler->uses(&kz.uuids, KZU_WRITES);
    kz_gives(Uuid);
    *Uuid = (GUID){++kz.uuids, 0x4b41, 0x4a44, {0x80, 0, 0, 0, 0, 0, 0, 0}};
    return STATUS_SUCCESS;
}

BOOLEAN MmIsAddressValid(PVOID VirtualAddress)
{
    return VirtualAddress != NULL;
}
