/* Rundown protection: a count, and a mark that nobody enters any more. */
#include "core/client.h"
#include "core/op.h"
#include "core/told.h"
#include "kit/interlocked.h"
#include "kit/timer.h"

/* ---- Who is inside by the callback that runs. What another one lets go of was handed to it: then nobody knows whose the others are. */
static void note_entered(const void *what)
{
    unsigned at = 0;
    while (at < 8 && kz_me->entered[at].count && !(kz_me->entered[at].what == what && kz_me->entered[at].callback == kz_me->place.number))
        at++;
    if (at == 8)
        return;
    kz_me->entered[at].what = what;
    kz_me->entered[at].callback = kz_me->place.number;
    kz_me->entered[at].count++;
}

static void note_left(KzClient *client, const void *what)
{
    for (unsigned at = 0; at < 8; at++)
        if (client->entered[at].what == what && client->entered[at].count) {
            bool is_own = client == kz_me && client->entered[at].callback == kz_me->place.number;
            client->entered[at].count = is_own ? client->entered[at].count - 1 : 0;
        }
}

static unsigned own_count(const void *what)
{
    for (unsigned at = 0; at < 8; at++)
        if (kz_me->entered[at].what == what && kz_me->entered[at].callback == kz_me->place.number)
            return kz_me->entered[at].count;
    return 0;
}

VOID ExInitializeRundownProtection(PEX_RUNDOWN_REF RunRef)
{
    kz_uses_all();
    RunRef->Count = 0;
}

VOID ExReInitializeRundownProtection(PEX_RUNDOWN_REF RunRef)
{
    KZ_CALL();
    kz_in_order_of(RunRef);
    RunRef->Count = 0;
}

BOOLEAN ExAcquireRundownProtection(PEX_RUNDOWN_REF RunRef)
{
    KZ_CALL();
    kz_in_order_of(RunRef);
    if (RunRef->Count & 1)
        return FALSE;
    RunRef->Count += 2;
    note_entered(RunRef);
    return TRUE;
}

VOID ExReleaseRundownProtection(PEX_RUNDOWN_REF RunRef)
{
    KZ_CALL();
    kz_in_order_of(RunRef);
    if (RunRef->Count < 2)
        kz_tell(KZM_LOCK_NOT_HELD, __func__, "the rundown protection isn't held");
    else
        RunRef->Count -= 2;
    note_left(&kz_first, RunRef);
    if (kz_me != &kz_first)
        note_left(kz_me, RunRef);
}

static bool is_run_down(void *reference)
{
    return ((PEX_RUNDOWN_REF)reference)->Count <= 1;
}

/* Whether anything but the callback that runs could come to an end: an operation, an open file, a timer. */
static bool is_anybody_left(void)
{
    for (const KzOp *op = kz.ops; op; op = op->next)
        if (op != kz_me->place.op)
            return true;
    for (const KzFile *file = kz.files; file; file = file->next)
        if (file->has_handle)
            return true;
    return kz_has_timer();
}

static void tell_endless(const char *call, unsigned own, unsigned long long inside)
{
    if (own && own == inside)
        kz_tell(KZM_WAITS_FOR_EVER, call, "this callback is inside itself: it waits for itself, for ever");
    else if (!is_anybody_left())
        kz_tell(KZM_WAITS_FOR_EVER, call, "%llu are inside, and nobody is left who would let go: it would wait for ever", inside);
    else
        kz_tell(KZM_NOBODY_SETS, call, "%llu are inside, and nobody runs here who would let go", inside);
    if (kz_me->place.filter)
        kz_me->place.filter->gave_up = true; /* what it does behind it, it never does */
}

/* Until nobody is inside. */
static void wait_until(bool (*is_over)(void *), void *lock, const char *call, unsigned long long (*inside)(void *))
{
    kz_in_order_of(lock);
    while (!is_over(lock) && kz_let_others())
        ;
    kz_wait(is_over, lock, "%s, while %llu are inside", call, inside(lock));
    kz_in_order_of(lock);
    if (!is_over(lock))
        tell_endless(call, own_count(lock), inside(lock));
}

static unsigned long long inside_of(void *reference)
{
    return (unsigned long long)((PEX_RUNDOWN_REF)reference)->Count / 2;
}

VOID ExWaitForRundownProtectionRelease(PEX_RUNDOWN_REF RunRef)
{
    KZ_CALL();
    kz_in_order_of(RunRef);
    RunRef->Count |= 1;
    wait_until(is_run_down, RunRef, __func__, inside_of);
}

VOID ExRundownCompleted(PEX_RUNDOWN_REF RunRef)
{
    KZ_CALL();
    RunRef->Count = 1;
}

/* The kit spreads the count of these over its processors: who is inside is the same. */
PEX_RUNDOWN_REF_CACHE_AWARE ExAllocateCacheAwareRundownProtection(POOL_TYPE PoolType, ULONG PoolTag)
{
    KZ_CALL();
    return ExAllocatePoolZero(PoolType, sizeof(EX_RUNDOWN_REF), PoolTag);
}

VOID ExFreeCacheAwareRundownProtection(PEX_RUNDOWN_REF_CACHE_AWARE RunRefCacheAware)
{
    KZ_CALL();
    ExFreePool(RunRefCacheAware);
}

VOID ExReInitializeRundownProtectionCacheAware(PEX_RUNDOWN_REF_CACHE_AWARE RunRefCacheAware)
{
    ExReInitializeRundownProtection((PEX_RUNDOWN_REF)RunRefCacheAware);
}

BOOLEAN ExAcquireRundownProtectionCacheAware(PEX_RUNDOWN_REF_CACHE_AWARE RunRefCacheAware)
{
    KZ_CALL();
    return ExAcquireRundownProtection((PEX_RUNDOWN_REF)RunRefCacheAware);
}

VOID ExReleaseRundownProtectionCacheAware(PEX_RUNDOWN_REF_CACHE_AWARE RunRefCacheAware)
{
    KZ_CALL();
    ExReleaseRundownProtection((PEX_RUNDOWN_REF)RunRefCacheAware);
}

VOID ExWaitForRundownProtectionReleaseCacheAware(PEX_RUNDOWN_REF_CACHE_AWARE RunRefCacheAware)
{
    KZ_CALL();
    ExWaitForRundownProtectionRelease((PEX_RUNDOWN_REF)RunRefCacheAware);
}

VOID ExRundownCompletedCacheAware(PEX_RUNDOWN_REF_CACHE_AWARE RunRefCacheAware)
{
    ExRundownCompleted((PEX_RUNDOWN_REF)RunRefCacheAware);
}

/* ---- Remove locks: one is counted for the device itself, until that is removed. */
VOID IoInitializeRemoveLockEx(PIO_REMOVE_LOCK Lock, ULONG AllocateTag, ULONG MaxLockedMinutes, ULONG HighWatermark, ULONG RemlockSize)
{
    kz_uses_all();
    (void)AllocateTag, (void)MaxLockedMinutes, (void)HighWatermark, (void)RemlockSize;
    Lock->Common.Removed = FALSE;
    Lock->Common.IoCount = 1;
    KeInitializeEvent(&Lock->Common.RemoveEvent, SynchronizationEvent, FALSE);
}

NTSTATUS IoAcquireRemoveLockEx(PIO_REMOVE_LOCK RemoveLock, PVOID Tag, PCSTR File, ULONG Line, ULONG RemlockSize)
{
    KZ_CALL();
    (void)Tag, (void)File, (void)Line, (void)RemlockSize;
    kz_in_order_of(RemoveLock);
    if (RemoveLock->Common.Removed)
        return STATUS_DELETE_PENDING;
    RemoveLock->Common.IoCount++;
    return STATUS_SUCCESS;
}

VOID IoReleaseRemoveLockEx(PIO_REMOVE_LOCK RemoveLock, PVOID Tag, ULONG RemlockSize)
{
    KZ_CALL();
    (void)Tag, (void)RemlockSize;
    kz_in_order_of(RemoveLock);
    if (RemoveLock->Common.IoCount < (RemoveLock->Common.Removed ? 1 : 2))
        kz_tell(KZM_LOCK_NOT_HELD, __func__, "the remove lock isn't held");
    else
        RemoveLock->Common.IoCount--;
}

static bool is_removed(void *lock)
{
    return ((PIO_REMOVE_LOCK)lock)->Common.IoCount <= 0;
}

static unsigned long long holders_of(void *lock)
{
    return (unsigned long long)((PIO_REMOVE_LOCK)lock)->Common.IoCount;
}

/* The caller's own, that of the device, and then all others. */
VOID IoReleaseRemoveLockAndWaitEx(PIO_REMOVE_LOCK RemoveLock, PVOID Tag, ULONG RemlockSize)
{
    KZ_CALL();
    (void)Tag, (void)RemlockSize;
    kz_in_order_of(RemoveLock);
    if (RemoveLock->Common.IoCount < 2) {
        kz_tell(KZM_LOCK_NOT_HELD, __func__, "the remove lock isn't held");
        return;
    }
    RemoveLock->Common.Removed = TRUE;
    RemoveLock->Common.IoCount -= 2;
    wait_until(is_removed, RemoveLock, __func__, holders_of);
}
