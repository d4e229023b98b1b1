/* Routines of the run-time library that need nothing of the system. */
#include "core/client.h"

/* ---- Time: 1970 began so many units of 100 nanoseconds after 1601. */
#define SECOND 10000000LL
#define BEGIN_OF_1970 116444736000000000LL

BOOLEAN RtlTimeToSecondsSince1970(PLARGE_INTEGER Time, PULONG ElapsedSeconds)
{
    LONGLONG seconds = (Time->QuadPart - BEGIN_OF_1970) / SECOND;
    if (Time->QuadPart < BEGIN_OF_1970 || seconds > 0xffffffffLL)
        return FALSE;
    *ElapsedSeconds = (ULONG)seconds;
    return TRUE;
}

VOID RtlSecondsSince1970ToTime(ULONG ElapsedSeconds, PLARGE_INTEGER Time)
{
    Time->QuadPart = BEGIN_OF_1970 + ElapsedSeconds * SECOND;
}

/* ---- Once. The lowest bits say how far it is; the rest is the context. */
enum { ONCE_BEGUN = 1, ONCE_DONE = 2, ONCE_BITS = 3 };
enum { CHECK_ONLY = 1, INIT_FAILED = 4 };

NTSTATUS RtlRunOnceBeginInitialize(PRTL_RUN_ONCE RunOnce, ULONG Flags, PVOID *Context)
{
    ULONG_PTR state = (ULONG_PTR)RunOnce->Ptr;
    if ((state & ONCE_BITS) == ONCE_DONE) {
        if (Context)
            *Context = (PVOID)(state & ~(ULONG_PTR)ONCE_BITS);
        return STATUS_SUCCESS;
    }
    if (Flags & CHECK_ONLY)
        return STATUS_UNSUCCESSFUL;
    RunOnce->Ptr = (PVOID)(ULONG_PTR)ONCE_BEGUN;
    return STATUS_PENDING;
}

NTSTATUS RtlRunOnceComplete(PRTL_RUN_ONCE RunOnce, ULONG Flags, PVOID Context)
{
    if (((ULONG_PTR)RunOnce->Ptr & ONCE_BITS) != ONCE_BEGUN)
        return STATUS_UNSUCCESSFUL;
    if ((ULONG_PTR)Context & ONCE_BITS)
        return STATUS_INVALID_PARAMETER;
    RunOnce->Ptr = Flags & INIT_FAILED ? NULL : (PVOID)((ULONG_PTR)Context | ONCE_DONE);
    return STATUS_SUCCESS;
}

NTSTATUS RtlRunOnceExecuteOnce(PRTL_RUN_ONCE RunOnce, PRTL_RUN_ONCE_INIT_FN InitFn, PVOID Parameter, PVOID *Context)
{
    PVOID made = NULL;
    NTSTATUS status = RtlRunOnceBeginInitialize(RunOnce, 0, Context);
    if (status != STATUS_PENDING)
        return status;
    if (!KZ_CALL_DRIVER(InitFn, RunOnce, Parameter, &made)) {
        RtlRunOnceComplete(RunOnce, INIT_FAILED, NULL);
        return STATUS_UNSUCCESSFUL;
    }
    if (Context)
        *Context = made;
    return RtlRunOnceComplete(RunOnce, 0, made);
}

/* ---- Texts. */
ULONG RtlCrc32(const VOID *Buffer, SIZE_T Size, ULONG InitialCrc)
{
    const UCHAR *bytes = Buffer;
    ULONG crc = ~InitialCrc;
    for (SIZE_T bit = 0; bit < Size * 8; bit++) {
        crc ^= bit % 8 == 0 ? bytes[bit / 8] : 0;
        crc = crc >> 1 ^ (crc & 1 ? 0xedb88320u : 0);
    }
    return ~crc;
}

ULONG RtlComputeCrc32(ULONG PartialCrc, const VOID *Buffer, ULONG Length)
{
    return RtlCrc32(Buffer, Length, PartialCrc);
}

/* The first part of a path, up to its `\`, and the rest behind that. */
VOID FsRtlDissectName(UNICODE_STRING Name, PUNICODE_STRING FirstPart, PUNICODE_STRING RemainingPart)
{
    USHORT length = Name.Length / (USHORT)sizeof(WCHAR), begin = length && Name.Buffer[0] == '\\', end = begin;
    while (end < length && Name.Buffer[end] != '\\')
        end++;
    USHORT first = (USHORT)((end - begin) * (int)sizeof(WCHAR)), rest = end < length ? (USHORT)((length - end - 1) * (int)sizeof(WCHAR)) : 0;
    *FirstPart = (UNICODE_STRING){first, first, first ? Name.Buffer + begin : NULL};
    *RemainingPart = (UNICODE_STRING){rest, rest, end < length ? Name.Buffer + end + 1 : NULL};
}

NTSTATUS FsRtlNormalizeNtstatus(NTSTATUS Exception, NTSTATUS GenericException)
{
    return FsRtlIsNtstatusExpected(Exception) ? Exception : GenericException;
}

SIZE_T RtlCompareMemory(const VOID *Source1, const VOID *Source2, SIZE_T Length)
{
    SIZE_T same = 0;
    while (same < Length && ((const UCHAR *)Source1)[same] == ((const UCHAR *)Source2)[same])
        same++;
    return same;
}

/* The bytes from its beginning that are made of that pattern, in whole ULONGs. */
SIZE_T RtlCompareMemoryUlong(PVOID Source, SIZE_T Length, ULONG Pattern)
{
    SIZE_T same = 0;
    while (same < Length / sizeof(ULONG) && ((const ULONG *)Source)[same] == Pattern)
        same++;
    return same * sizeof(ULONG);
}

VOID RtlFillMemoryUlong(PVOID Destination, SIZE_T Length, ULONG Pattern)
{
    for (SIZE_T at = 0; at < Length / sizeof(ULONG); at++)
        ((ULONG *)Destination)[at] = Pattern;
}

BOOLEAN RtlAreAllAccessesGranted(ACCESS_MASK GrantedAccess, ACCESS_MASK DesiredAccess)
{
    return !(DesiredAccess & ~GrantedAccess);
}

BOOLEAN RtlAreAnyAccessesGranted(ACCESS_MASK GrantedAccess, ACCESS_MASK DesiredAccess)
{
    return (GrantedAccess & DesiredAccess) != 0;
}

/* ---- Numbers that look random: those of Lehmer's generator with the kit's two constants. */
static ULONG uniform(PULONG Seed)
{
    kz_uses_all();
    *Seed = (ULONG)((*Seed * 0x7fffffedULL + 0x7fffffc3) % MAXLONG);
    return *Seed;
}

/* What it answers isn't the seed that it leaves. */
ULONG RtlRandomEx(PULONG Seed)
{
    ULONG made = uniform(Seed);
    uniform(Seed);
    return made;
}

ULONG RtlRandom(PULONG Seed)
{
    return RtlRandomEx(Seed);
}
