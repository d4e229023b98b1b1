/* Callbacks that don't come to an end: the processor's time is looked at each second. One that is the same for some seconds is endless: that is said with its line, and ends the program with status 6.
 * A routine that may live long, such as a thread or a work item, is one only if it makes no call of the kit meanwhile. Time that is slept doesn't count. */
#define _GNU_SOURCE
#include "core/late.h"

#include "core/client.h"
#include "core/crash.h"
#include "core/source.h"

#include <signal.h>
#include <stdlib.h>
#include <sys/time.h>
#include <unistd.h>

enum { USUAL = 3, ENDLESS = 6 };

static struct {
    unsigned patience;
    volatile sig_atomic_t signal;
    bool is_watched;
} late = {.patience = USUAL};

/* What this thread was in when it was looked at last. */
static _Thread_local struct {
    uint64_t callback, calls;
    unsigned seconds;
    bool is_late;
} seen;

void kz_be_patient(unsigned seconds)
{
    late.patience = seconds > 0 ? seconds : 1;
}

int kz_ending_signal(void)
{
    return late.signal;
}

static void end(const void *at)
{
    if (!kz_put_place("ENDLESS", NULL, at))
        sleep(5); /* another thread says so, and ends the program */
    _exit(ENDLESS);
}

void kz_look_at_time(void)
{
    if (seen.is_late && seen.callback == kz_me->place.number)
        end(NULL);
    seen.is_late = false;
}

static bool may_live_long(const KzPlace *place)
{
    return place->callback == KZ_IN_THREAD || place->callback == KZ_IN_WORK || place->callback == KZ_IN_PORT || place->callback == KZ_IN_NOTHING;
}

static bool has_line(const void *at)
{
    char line[100];
    return kz_find_source(kz_in_file(at) + 1, line, sizeof line);
}

/* In the driver's own code it is said at once. Inside of a call of the kit it is as that returns: the host may hold what is needed to say it. So it is on the way into a call or out of
 * one, where no line is known; if no call returns until it is looked at again, that is said without a line. */
static void tick(int signal, siginfo_t *information, void *context)
{
    const KzPlace *place = &kz_me->place;
    (void)signal, (void)information;
    bool is_same = place->number == seen.callback && (!may_live_long(place) || kz_me->calls == seen.calls);
    seen.seconds = is_same ? seen.seconds + 1 : 0;
    seen.callback = place->number;
    seen.calls = kz_me->calls;
    if (seen.seconds < late.patience || place->callback == KZ_IN_NOTHING)
        return;
    if (kz_me->inside > 0 || (!seen.is_late && !has_line(kz_code_at(context))))
        seen.is_late = true;
    else
        end(kz_driver_at(context));
}

static void ask_to_end(int signal, siginfo_t *information, void *context)
{
    (void)information;
    late.signal = signal;
    if (kz_me->place.callback == KZ_IN_NOTHING && kz_scheduler->has_others)
        return; /* a load ends itself */
    if (kz_me->place.callback != KZ_IN_NOTHING)
        kz_put_place("INTERRUPTED", NULL, kz_me->inside ? NULL : kz_driver_at(context));
    sigaction(signal, &(struct sigaction){.sa_handler = SIG_DFL}, NULL);
    raise(signal);
}

/* Who ignores a signal, as a program in the background does, goes on to. */
static void take_signal(int signal)
{
    struct sigaction before;
    sigaction(signal, NULL, &before);
    if (before.sa_handler == SIG_DFL)
        sigaction(signal, &(struct sigaction){.sa_sigaction = ask_to_end, .sa_flags = SA_SIGINFO}, NULL);
}

/* The explorer has a clock of its own. */
void kz_watch_time(void)
{
    if (late.is_watched || !kz_scheduler->has_pages)
        return;
    late.is_watched = true;
    sigaction(SIGVTALRM, &(struct sigaction){.sa_sigaction = tick, .sa_flags = SA_SIGINFO | SA_RESTART}, NULL);
    setitimer(ITIMER_VIRTUAL, &(struct itimerval){{1, 0}, {1, 0}}, NULL);
    take_signal(SIGINT);
    take_signal(SIGTERM);
}
