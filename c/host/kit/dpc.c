/* Deferred procedure calls: they run once the request is answered, at DISPATCH_LEVEL. */
#include "kit/dpc.h"

#include "core/access.h"
#include "core/client.h"
#include "core/module.h"
#include "core/place.h"
#include "core/state.h"
#include "core/told.h"
#include "kit/extimer.h"

struct KzDpcState {
    PRKDPC queue[64];
    size_t count;
    unsigned running;
};
static const int dpcs_ended; /* stands for what ended of them: whoever waits for it comes after */

static bool is_queued(const KDPC *dpc)
{
    size_t at = 0;
    while (at < kz.dpc->count && kz.dpc->queue[at] != dpc)
        at++;
    return at < kz.dpc->count;
}

VOID KeInitializeDpc(PRKDPC Dpc, PKDEFERRED_ROUTINE DeferredRoutine, PVOID DeferredContext)
{
    KZ_INSIDE_ALONE();
    kz_uses_bytes(Dpc, sizeof *Dpc, KZU_WRITES);
    if (is_queued(Dpc))
        kz_tell_of(Dpc, KZM_STILL_MADE, __func__, "a DPC that is queued");
    KeRemoveQueueDpc(Dpc);
    kz_must_be_there(Dpc, "a DPC", __func__);
    *Dpc = (KDPC){.DeferredRoutine = DeferredRoutine, .DeferredContext = DeferredContext};
}

BOOLEAN KeInsertQueueDpc(PRKDPC Dpc, PVOID SystemArgument1, PVOID SystemArgument2)
{
    KZ_CALL();
    if (!Dpc->DeferredRoutine) {
        kz_tell_of(Dpc, KZM_NEVER_MADE, __func__, "a DPC that was never initialized");
        return FALSE;
    }
    kz_scheduler->touch(Dpc, 0, KZT_GIVES); /* also for one that is queued already: it runs after this call */
    if (Dpc->DpcData || kz.dpc->count == sizeof kz.dpc->queue / sizeof kz.dpc->queue[0])
        return FALSE;
    Dpc->SystemArgument1 = SystemArgument1;
    Dpc->SystemArgument2 = SystemArgument2;
    Dpc->DpcData = kz_me->place.filter;
    if (!Dpc->DpcData)
        Dpc->DpcData = Dpc;
    kz.dpc->queue[kz.dpc->count++] = Dpc;
    return TRUE;
}

BOOLEAN KeRemoveQueueDpc(PRKDPC Dpc)
{
    KZ_CALL();
    for (size_t at = 0; at < kz.dpc->count; at++)
        if (kz.dpc->queue[at] == Dpc) {
            memmove(kz.dpc->queue + at, kz.dpc->queue + at + 1, (--kz.dpc->count - at) * sizeof kz.dpc->queue[0]);
            Dpc->DpcData = NULL;
            kz_scheduler->touch(Dpc, 0, KZT_TAKES);
            return TRUE;
        }
    return FALSE;
}

bool kz_has_dpc(void)
{
    return kz.dpc->count > 0;
}

/* The call that has waited longest, in the name of the filter that queued it: KeInsertQueueDpc leaves that in DpcData, or the DPC itself where it was no filter. */
bool kz_run_dpc(void)
{
    if (!kz.dpc->count)
        return false;
    PRKDPC dpc = kz.dpc->queue[0];
    PFLT_FILTER filter = dpc->DpcData == dpc ? NULL : dpc->DpcData;
    PEX_TIMER timer = kz_timer_of(dpc); /* the routine may give the call's memory back */
    KeRemoveQueueDpc(dpc);
    kz.dpc->running++;
    KzPlace before = kz_enter(KZ_IN_TIMER, kz_worker(), filter, NULL, NULL, NULL);
    kz_call_at(DISPATCH_LEVEL);
    if (timer)
        kz_timer_begins(timer);
    unsigned depth = kz_let_driver("timer", kz_dpc_routine(dpc));
    kz_call_dpc(dpc);
    kz_driver_returned(depth, "timer returns");
    kz_leave(before);
    kz.dpc->running--;
    kz.changes++;
    kz_scheduler->touch(&dpcs_ended, 0, KZT_GIVES);
    if (timer)
        kz_timer_is_over(timer);
    return true;
}

void kz_run_dpcs(void)
{
    while (kz_run_dpc())
        ;
}

static bool are_dpcs_over(void *unused)
{
    (void)unused;
    return !kz.dpc->count && !kz.dpc->running;
}

/* Beside others it waits for those that are queued, and for those that run. */
VOID KeFlushQueuedDpcs(VOID)
{
    KZ_CALL();
    if (kz_has_others())
        kz_wait(are_dpcs_over, NULL, "KeFlushQueuedDpcs, for what is queued or runs");
    else
        kz_run_dpcs();
    kz_scheduler->touch(&dpcs_ended, 0, KZT_TAKES);
}

void kz_check_dpcs(const void *memory, size_t size)
{
    for (size_t at = kz.dpc->count; at-- > 0;)
        if ((uintptr_t)kz.dpc->queue[at] - (uintptr_t)memory < size) {
            kz_tell_of(kz.dpc->queue[at], KZM_TIMER_LEFT, "KeRemoveQueueDpc", "never called for a DPC that is queued, whose memory is freed");
            KeRemoveQueueDpc(kz.dpc->queue[at]);
        }
}

const KzModule kz_dpc_module = {KZ_STATE(dpc), .goes_on = kz_run_dpc};
