/* Timers. One never fires unless time passes. */
#include "kit/timer.h"

#include "core/beside.h"
#include "core/access.h"
#include "core/client.h"
#include "core/clock.h"
#include "core/module.h"
#include "core/place.h"
#include "core/told.h"
#include "manager/work.h"
#include "kit/dispatcher.h"
#include "kit/dpc.h"
#include "kit/extimer.h"

struct KzTimerState {
    struct {
        PKTIMER timer;
        KzPlace place; /* where it was set */
    } set[64];
    size_t count;
};

bool kz_has_timer(void)
{
    return kz.timer->count > 0;
}

bool kz_is_set(const KTIMER *timer)
{
    size_t at = 0;
    while (at < kz.timer->count && kz.timer->set[at].timer != timer)
        at++;
    return at < kz.timer->count;
}

VOID KeInitializeTimerEx(PKTIMER Timer, TIMER_TYPE Type)
{
    KZ_INSIDE_ALONE();
    kz_uses_bytes(Timer, sizeof *Timer, KZU_WRITES);
    if (kz_is_set(Timer)) {
        kz_tell_of(Timer, KZM_STILL_MADE, __func__, "a timer that is set");
        KeCancelTimer(Timer);
    }
    kz_must_be_there(Timer, "a timer", __func__);
    *Timer = (KTIMER){.Header.Type = (UCHAR)(Type == NotificationTimer ? KZ_TIMER_KEEPS : KZ_TIMER_RESETS)};
    kz_make_dispatcher(&Timer->Header);
}

VOID KeInitializeTimer(PKTIMER Timer)
{
    KZ_INSIDE_ALONE();
    kz_uses_bytes(Timer, sizeof *Timer, KZU_WRITES);
    KeInitializeTimerEx(Timer, NotificationTimer);
}

BOOLEAN KeCancelTimer(PKTIMER Timer)
{
    KZ_CALL();
    kz_check_dispatcher(&Timer->Header, "a timer", "KeCancelTimer");
    kz_scheduler->touch(Timer, 0, KZT_TAKES);
    for (size_t at = 0; at < kz.timer->count; at++)
        if (kz.timer->set[at].timer == Timer) {
            memmove(kz.timer->set + at, kz.timer->set + at + 1, (--kz.timer->count - at) * sizeof kz.timer->set[0]);
            return TRUE;
        }
    return FALSE;
}

static void set_timer(PKTIMER timer, const KzPlace *place)
{
    if (kz.timer->count == sizeof kz.timer->set / sizeof kz.timer->set[0])
        return;
    kz.timer->set[kz.timer->count].timer = timer;
    kz.timer->set[kz.timer->count++].place = *place;
}

BOOLEAN KeSetTimerEx(PKTIMER Timer, LARGE_INTEGER DueTime, LONG Period, PKDPC Dpc)
{
    KZ_CALL();
    if (!kz_check_dispatcher(&Timer->Header, "a timer", __func__))
        KeInitializeTimer(Timer);
    BOOLEAN was_set = KeCancelTimer(Timer);
    LONGLONG due = DueTime.QuadPart < 0 ? kz.passed - DueTime.QuadPart : DueTime.QuadPart - KZ_BEGINS;
    Timer->DueTime.QuadPart = (ULONGLONG)due;
    Timer->Period = Period;
    Timer->Dpc = Dpc;
    Timer->Header.SignalState = 0;
    Timer->TimerListEntry.Flink = (PLIST_ENTRY)kz_me->place.filter;
    set_timer(Timer, &kz_me->place);
    kz_scheduler->touch(Timer, 0, KZT_GIVES);
    return was_set;
}

BOOLEAN KeSetTimer(PKTIMER Timer, LARGE_INTEGER DueTime, PKDPC Dpc)
{
    KZ_CALL();
    return KeSetTimerEx(Timer, DueTime, 0, Dpc);
}

BOOLEAN KeReadStateTimer(PKTIMER Timer)
{
    KZ_CALL();
    kz_scheduler->touch(Timer, 0, KZT_TAKES);
    return Timer->Header.SignalState != 0;
}

static PKTIMER next_due(LONGLONG until)
{
    PKTIMER next = NULL;
    for (size_t at = 0; at < kz.timer->count; at++)
        if ((LONGLONG)kz.timer->set[at].timer->DueTime.QuadPart <= until && (!next || kz.timer->set[at].timer->DueTime.QuadPart < next->DueTime.QuadPart))
            next = kz.timer->set[at].timer;
    return next;
}

static KzPlace place_of(PKTIMER timer)
{
    for (size_t at = 0; at < kz.timer->count; at++)
        if (kz.timer->set[at].timer == timer)
            return kz.timer->set[at].place;
    return kz_me->place;
}

static void fire(PKTIMER timer)
{
    PFLT_FILTER filter = (PFLT_FILTER)timer->TimerListEntry.Flink;
    KzPlace place = place_of(timer);
    KeCancelTimer(timer); /* after whoever set it */
    if ((LONGLONG)timer->DueTime.QuadPart > kz.passed)
        kz.passed = (LONGLONG)timer->DueTime.QuadPart;
    timer->Header.SignalState = 1;
    kz_scheduler->touch(timer, 0, KZT_GIVES);
    if (timer->Period) {
        timer->DueTime.QuadPart += (ULONGLONG)timer->Period * KZ_MILLISECOND;
        set_timer(timer, &place);
    }
    if (timer->Dpc) {
        KzPlace before = kz_me->place;
        kz_me->place.filter = filter;
        KeInsertQueueDpc(timer->Dpc, NULL, NULL);
        kz_me->place = before;
    }
}

/* The next one that is due up to then: a timer fires, or the time of a thread's wait is over. */
static bool pass_to_next(LONGLONG until)
{
    uint64_t deadline;
    PKTIMER timer = next_due(until);
    LONGLONG due = timer ? (LONGLONG)timer->DueTime.QuadPart : until;
    if (!kz_has_others() && kz_next_deadline(&deadline) && (LONGLONG)deadline * KZ_MILLISECOND <= due) {
        if ((LONGLONG)deadline * KZ_MILLISECOND > kz.passed)
            kz.passed = (LONGLONG)deadline * KZ_MILLISECOND;
        return kz_run_threads();
    }
    if (!timer)
        return false;
    fire(timer);
    kz_run_dpcs();
    return true;
}

static void forget_timers(PFLT_FILTER filter)
{
    for (size_t at = kz.timer->count; at-- > 0;)
        if ((PFLT_FILTER)kz.timer->set[at].timer->TimerListEntry.Flink == filter) {
            KzPlace before = kz_enter_again(&kz.timer->set[at].place);
            kz_tell(KZM_TIMER_LEFT, kz_ends_timer(kz.timer->set[at].timer), "never called for a timer that is set: it would fire in a driver that is gone");
            kz_me->place = before;
            KeCancelTimer(kz.timer->set[at].timer);
        }
}

static void check_memory(const void *memory, size_t size)
{
    for (size_t at = kz.timer->count; at-- > 0;)
        if ((uintptr_t)kz.timer->set[at].timer - (uintptr_t)memory < size) {
            kz_tell_of(kz.timer->set[at].timer, KZM_TIMER_LEFT, kz_ends_timer(kz.timer->set[at].timer), "never called for a timer that is set, whose memory is freed");
            KeCancelTimer(kz.timer->set[at].timer);
        }
    kz_check_dpcs(memory, size);
}

static void free_timers(void)
{
    kz.passed = 0;
}

bool kz_may_fire(void)
{
    return kz.waiters > 0 && kz.fires_left > 0 && kz.timer->count > 0;
}

void kz_fire(void)
{
    PKTIMER next = next_due(INT64_MAX);
    if (!next)
        return;
    kz.fires_left--;
    fire(next);
}

bool kz_can_run(void *unused)
{
    (void)unused;
    return kz_has_dpc() || kz_has_work() || kz_may_fire();
}

const KzModule kz_timer_module = {KZ_STATE(timer), .free = free_timers, .filter_ends = forget_timers, .memory_goes = check_memory, .passes = pass_to_next};
