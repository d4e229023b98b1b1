/* Timers of Ex. Each is memory of a pool, as the kit has it: one that nobody deletes is a leak, and what uses it behind its end uses memory that is gone. */
#include "kit/extimer.h"

#include "core/access.h"
#include "core/binary.h"
#include "core/client.h"
#include "core/clock.h"
#include "core/irql.h"
#include "core/piece.h"
#include "core/told.h"
#include "kit/dpc.h"
#include "kit/timer.h"

#define TAG 'mTxE'

struct _EX_TIMER {
    KTIMER timer; /* first: the object is waited for by its address */
    KDPC dpc;
    PEXT_CALLBACK callback;
    PVOID context;
    PEXT_DELETE_CALLBACK deleted; /* called once it is gone */
    PVOID deleted_context;
    bool is_running, is_deleted, is_awaited; /* is_awaited: who deletes it waits for its callback */
};

/* It stands for the driver's callback. */
static VOID expire(PKDPC Dpc, PVOID Timer, PVOID First, PVOID Second)
{
    (void)Dpc, (void)Timer, (void)First, (void)Second;
}

static bool is_of_timer(const KDPC *dpc)
{
    return dpc->DeferredRoutine == expire;
}

const char *kz_ends_timer(const KTIMER *timer)
{
    return timer->Dpc && is_of_timer(timer->Dpc) ? "ExDeleteTimer" : "KeCancelTimer";
}

PEX_TIMER kz_timer_of(const KDPC *dpc)
{
    return is_of_timer(dpc) ? dpc->DeferredContext : NULL;
}

PVOID kz_dpc_routine(const KDPC *dpc)
{
    PEX_TIMER timer = kz_timer_of(dpc);
    return timer && timer->callback ? (PVOID)timer->callback : (PVOID)dpc->DeferredRoutine;
}

void kz_call_dpc(PRKDPC dpc)
{
    PEX_TIMER timer = kz_timer_of(dpc);
    if (timer && timer->callback)
        KZ_CALL_DRIVER(timer->callback, timer, timer->context);
    else if (!timer)
        KZ_CALL_DRIVER(dpc->DeferredRoutine, dpc, dpc->DeferredContext, dpc->SystemArgument1, dpc->SystemArgument2);
}

static bool is_quiet(void *given)
{
    PEX_TIMER timer = given;
    return !timer->is_running && !timer->dpc.DpcData;
}

void kz_timer_begins(PEX_TIMER timer)
{
    timer->is_running = true;
}

/* One that is deleted and is set no more goes. */
static void end_if_over(PEX_TIMER timer)
{
    if (!timer->is_deleted || timer->is_awaited || !is_quiet(timer) || kz_is_set(&timer->timer))
        return;
    PEXT_DELETE_CALLBACK deleted = timer->deleted;
    PVOID context = timer->deleted_context;
    kz_scheduler->touch(timer, 0, KZT_TAKES); /* behind its callback */
    kz_give_back(timer);
    if (!deleted)
        return;
    unsigned depth = kz_let_driver("timer deleted", deleted);
    KZ_CALL_DRIVER(deleted, context);
    kz_driver_returned(depth, "timer deleted returns");
}

void kz_timer_is_over(PEX_TIMER timer)
{
    timer->is_running = false;
    kz_scheduler->touch(timer, 0, KZT_GIVES);
    end_if_over(timer);
}

/* Whether ExAllocateTimer made it, and nobody has deleted it. */
static bool is_timer(PEX_TIMER timer, const char *call)
{
    KzPiece *piece = kz_piece_of(timer);
    bool is = piece && piece->kind == KZK_POOL && piece->tag == TAG && !timer->is_deleted;
    if (!is)
        kz_tell(KZM_NEVER_MADE, call, "no timer of ExAllocateTimer (deleted already?)");
    return is;
}

PEX_TIMER ExAllocateTimer(PEXT_CALLBACK Callback, PVOID CallbackContext, ULONG Attributes)
{
    KZ_CALL();
    PEX_TIMER made = kz_refuses(KZ_CHOICE_POOL, __func__) ? NULL : kz_take_memory(KZK_POOL, sizeof *made, 0, TAG);
    if (!made)
        return NULL;
    made->callback = Callback;
    made->context = CallbackContext;
    KeInitializeTimerEx(&made->timer, Attributes & EX_TIMER_NOTIFICATION ? NotificationTimer : SynchronizationTimer);
    KeInitializeDpc(&made->dpc, expire, made);
    return made;
}

/* Periods are of 100 ns; the host's clock goes by milliseconds, and one is rounded up to them. */
BOOLEAN ExSetTimer(PEX_TIMER Timer, LONGLONG DueTime, LONGLONG Period, PEXT_SET_PARAMETERS Parameters)
{
    KZ_CALL();
    (void)Parameters;
    if (!is_timer(Timer, __func__))
        return FALSE;
    LARGE_INTEGER due = {.QuadPart = DueTime};
    return KeSetTimerEx(&Timer->timer, due, (LONG)((Period + KZ_MILLISECOND - 1) / KZ_MILLISECOND), &Timer->dpc);
}

BOOLEAN ExCancelTimer(PEX_TIMER Timer, PEXT_CANCEL_PARAMETERS Parameters)
{
    KZ_CALL();
    (void)Parameters;
    return is_timer(Timer, __func__) && KeCancelTimer(&Timer->timer);
}

static void wait_for_callback(PEX_TIMER timer)
{
    timer->is_awaited = true;
    if (!kz_has_others())
        kz_run_dpcs();
    kz_wait(is_quiet, timer, "ExDeleteTimer, for the timer's callback");
    kz_scheduler->touch(timer, 0, KZT_TAKES);
    timer->is_awaited = false;
}

/* One that isn't to be taken back fires for the last time, and is gone then. */
BOOLEAN ExDeleteTimer(PEX_TIMER Timer, BOOLEAN Cancel, BOOLEAN Wait, PEXT_DELETE_PARAMETERS Parameters)
{
    KZ_CALL();
    if (!is_timer(Timer, __func__))
        return FALSE;
    if (Wait)
        kz_may_be_called(__func__, APC_LEVEL);
    Timer->is_deleted = true;
    Timer->deleted = Parameters ? Parameters->DeleteCallback : NULL;
    Timer->deleted_context = Parameters ? Parameters->DeleteContext : NULL;
    BOOLEAN was_set = Cancel && KeCancelTimer(&Timer->timer);
    if (Wait)
        wait_for_callback(Timer);
    end_if_over(Timer);
    return was_set;
}
