/* IRQLs, critical regions, spin locks, and what is done under one. */
#include "core/client.h"
#include "core/held.h"
#include "core/told.h"

KIRQL KeGetCurrentIrql(VOID)
{
    KZ_INSIDE_ALONE();
    return kz_irql();
}

KIRQL KfRaiseIrql(KIRQL NewIrql)
{
    KZ_INSIDE_ALONE();
    KIRQL before = kz_irql();
    if (NewIrql < before)
        kz_tell(KZM_IRQL, "KeRaiseIrql", "to %u, below the current %u", NewIrql, before);
    kz_me->place.raised = NewIrql;
    return before;
}

VOID KeLowerIrql(KIRQL NewIrql)
{
    KZ_INSIDE_ALONE();
    if (NewIrql > kz_me->place.raised)
        kz_tell(KZM_IRQL, "KeLowerIrql", "to %u, above the current %u", NewIrql, kz_me->place.raised);
    else if (NewIrql < kz_me->place.irql)
        kz_tell(KZM_IRQL, "KeLowerIrql", "to %u, below the %u at which the callback was called", NewIrql, kz_me->place.irql);
    kz_me->place.raised = NewIrql < kz_me->place.irql ? kz_me->place.irql : NewIrql;
}

void KzPagedCode(PCSTR Function)
{
    KZ_INSIDE_OF("PAGED_CODE");
    kz_uses_own();
    KIRQL irql = KeGetCurrentIrql();
    if (irql > APC_LEVEL)
        kz_tell(KZM_IRQL, "PAGED_CODE", "%s runs at IRQL %u", Function, irql);
}

VOID KeEnterCriticalRegion(VOID)
{
    KZ_INSIDE_ALONE();
    KzTake(&kz_me->region, KZ_AGAIN | KZ_IN_REGION, PASSIVE_LEVEL, __func__);
}

VOID KeLeaveCriticalRegion(VOID)
{
    KZ_INSIDE_ALONE();
    KzLetGo(&kz_me->region, __func__);
}

VOID KeEnterGuardedRegion(VOID)
{
    KZ_INSIDE_ALONE();
    KzTake(&kz_me->guarded, KZ_AGAIN | KZ_GUARDED, PASSIVE_LEVEL, __func__);
}

VOID KeLeaveGuardedRegion(VOID)
{
    KZ_INSIDE_ALONE();
    KzLetGo(&kz_me->guarded, __func__);
}

/* Normal ones, by regions; the IRQL isn't looked at. */
BOOLEAN KeAreApcsDisabled(VOID)
{
    KZ_INSIDE_ALONE();
    return kz_is_in_region(false);
}

/* Special ones, too. */
BOOLEAN KeAreAllApcsDisabled(VOID)
{
    KZ_INSIDE_ALONE();
    return kz_is_in_region(true) || kz_irql() >= APC_LEVEL;
}

KIRQL KzTakeSpinLock(PVOID Lock, PCSTR Call)
{
    KZ_CALL_OF(Call);
    kz_uses_own();
    KIRQL before = KeGetCurrentIrql();
    KzTake(Lock, KZ_ALONE, DISPATCH_LEVEL, Call);
    return before;
}

KIRQL KzTakeSpinLockShared(PVOID Lock, PCSTR Call)
{
    KZ_CALL_OF(Call);
    kz_uses_own();
    KIRQL before = KeGetCurrentIrql();
    KzTake(Lock, KZ_SHARED, DISPATCH_LEVEL, Call);
    return before;
}
