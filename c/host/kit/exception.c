/* What a driver says itself: assertions, bug checks and exceptions. */
#include "core/access.h"
#include "core/client.h"
#include "core/raise.h"
#include "core/told.h"

#include <stdlib.h>

/* ---- What the driver says itself. */
void KzAssertFailed(PCSTR Expression, PCSTR File, int Line)
{
    KZ_INSIDE_OF("ASSERT");
    const char *slash = strrchr(File, '/');
    kz_tell(KZM_ASSERT, "ASSERT", "%s doesn't hold (%s:%d)", Expression, slash ? slash + 1 : File, Line);
}

void KzBreak(void)
{
    KZ_INSIDE_OF("DbgBreakPoint");
    kz_acts_as_driver();
    kz_tell(KZM_BUG_CHECK, "DbgBreakPoint", "the driver breaks into a debugger");
}

void KzBugCheck(ULONG Code)
{
    KZ_INSIDE_OF("KeBugCheckEx");
    kz_tell(KZM_BUG_CHECK, "KeBugCheckEx", "the driver stops the system with 0x%08x", Code);
    abort();
}

/* ---- Exceptions (core/raise.c). */
/* It is looked at what the driver holds, and at which IRQL; the exception is raised outside of the host. */
static void look_at(const char *call, const void *from)
{
    KZ_INSIDE_FROM(call, from);
    kz_uses_own();
}

static void raise_at(const char *call, NTSTATUS status, const void *from)
{
    look_at(call, from);
    if (status)
        kz_raise_for(call, status, from);
}

VOID ExRaiseStatus(NTSTATUS Status)
{
    look_at("ExRaiseStatus", KZ_CALLER());
    kz_raise_for("ExRaiseStatus", Status, KZ_CALLER());
}

VOID ExRaiseAccessViolation(VOID)
{
    raise_at("ExRaiseAccessViolation", STATUS_ACCESS_VIOLATION, KZ_CALLER());
}

VOID ExRaiseDatatypeMisalignment(VOID)
{
    raise_at("ExRaiseDatatypeMisalignment", STATUS_DATATYPE_MISALIGNMENT, KZ_CALLER());
}

/* As in the kit: that memory of the user's lies where it may and as it is to, and no more. */
static NTSTATUS probe(const volatile VOID *address, SIZE_T length, ULONG alignment)
{
    uintptr_t at = (uintptr_t)address;
    if (!length)
        return STATUS_SUCCESS;
    if (alignment > 1 && at & (alignment - 1))
        return STATUS_DATATYPE_MISALIGNMENT;
    return at + length < at || at + length > MmUserProbeAddress ? STATUS_ACCESS_VIOLATION : STATUS_SUCCESS;
}

VOID ProbeForRead(const volatile VOID *Address, SIZE_T Length, ULONG Alignment)
{
    kz_must_be_in_try("ProbeForRead", KZ_CALLER(), "that isn't the program's memory");
    raise_at("ProbeForRead", probe(Address, Length, Alignment), KZ_CALLER());
}

VOID ProbeForWrite(volatile VOID *Address, SIZE_T Length, ULONG Alignment)
{
    kz_must_be_in_try("ProbeForWrite", KZ_CALLER(), "that isn't the program's memory");
    raise_at("ProbeForWrite", probe(Address, Length, Alignment), KZ_CALLER());
}
