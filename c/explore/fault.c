/* Faults: the first write to a page of the image, a crash of the driver's, and code that never comes to a point. */
#define _GNU_SOURCE
#include "explore.h"
#include "core/coverage.h"
#include "core/crash.h"
#include "core/frame.h"
#include "core/place.h"
#include "core/raise.h"

#include <signal.h>
#include <sys/time.h>

static const int signals[] = {SIGSEGV, SIGBUS, SIGABRT, SIGFPE, SIGILL, SIGTRAP};

static void leave_run(KindOf of, const char *what, const void *at)
{
    char text[TEXT], place[TEXT / 2];
    kz_place_text(place, sizeof place);
    snprintf(text, sizeof text, "%s at @%lx: %s", what, (unsigned long)(uintptr_t)at, place);
    ex_found(of, text);
    siglongjmp(ex->run.out, 1);
}

/* What a binary may not do by itself in this process, or takes for an exception. */
static bool is_carried_on(int signal, siginfo_t *information, void *context)
{
    if (kz_binaries.carry_out && (kz_binaries.carry_out(signal, information, context) || kz_binaries.raise(signal, information, context)))
        return true;
    if (!ex->run.is_running || !kz_takes_fault(signal, information, context))
        return false;
    ex_hooked = NULL; /* the hook isn't gone on with */
    return true;
}

/* The driver's own, that which it called there, or none of its. */
static const void *code_of(const ucontext_t *machine)
{
    const void *at = (const void *)machine->uc_mcontext.gregs[REG_RIP], *call = NULL;
    if (!kz_is_drivers_code(at) && !kz_is_binary(at))
        call = kz_me->place.from ? kz_me->place.from : kz_drivers_call((const void *)machine->uc_mcontext.gregs[REG_RSP]);
    return call ? call : (const char *)at + 1;
}

static void handle(int signal, siginfo_t *information, void *context)
{
    const ucontext_t *machine = context;
    char what[40];
    if ((signal == SIGSEGV && ex_opens_page(information->si_addr)) || (signal == SIGTRAP && kz_pass_mark(context)))
        return;
    if (is_carried_on(signal, information, context))
        return;
    if (!ex->run.is_running) {
        sigaction(signal, &(struct sigaction){.sa_handler = SIG_DFL}, NULL);
        return;
    }
    snprintf(what, sizeof what, "CRASH %s", kz_signal_name(signal));
    leave_run(CRASH, what, ex_hooked ? ex_hooked : code_of(machine));
}

/* Each tenth of a second of the processor's: a run that stays where it was for some of them is endless. */
static void tick(int signal, siginfo_t *information, void *context)
{
    const ucontext_t *machine = context;
    uint64_t *last = ex->ticked;
    (void)signal, (void)information;
    bool is_same = ex->run.is_running && last[0] == ex->search.runs && last[1] == ex->run.steps;
    last[2] = is_same ? last[2] + 1 : 0;
    last[0] = ex->search.runs;
    last[1] = ex->run.steps;
    if (last[2] >= (ex->total.is_endless ? 2 : 4) && kz_me->inside == 0) {
        ex->total.is_endless = true;
        leave_run(STUCK, "ENDLESS: the driver's code comes to no call", (const char *)machine->uc_mcontext.gregs[REG_RIP] + 1);
    }
}

void ex_watch_faults(void)
{
    size_t size = 1 << 16;
    sigaltstack(&(stack_t){.ss_sp = ex_map(size), .ss_size = size}, NULL);
    struct sigaction action = {.sa_sigaction = handle, .sa_flags = SA_SIGINFO | SA_ONSTACK | SA_NODEFER};
    for (size_t at = 0; at < sizeof signals / sizeof signals[0]; at++)
        sigaction(signals[at], &action, NULL);
    action.sa_sigaction = tick;
    action.sa_flags |= SA_RESTART;
    sigaction(SIGVTALRM, &action, NULL);
    setitimer(ITIMER_VIRTUAL, &(struct itimerval){{0, 100000}, {0, 100000}}, NULL);
}
