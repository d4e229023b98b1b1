/* A crash says where it was, and then ends the program as it would have. Only calls that are safe in a signal's handler are made. */
#define _GNU_SOURCE
#include "core/crash.h"

#include "core/client.h"
#include "core/frame.h"
#include "core/piece.h"
#include "core/place.h"
#include "core/said.h"
#include "core/source.h"

#include <signal.h>
#include <ucontext.h>
#include <unistd.h>

/* A touch so near to the stack's end may be one past it. */
enum { NEAR = 1 << 16 };

static const int signals[] = {SIGSEGV, SIGBUS, SIGABRT, SIGFPE, SIGILL};
static struct {
    struct sigaction before[sizeof signals / sizeof signals[0]];
    uint8_t stack[65536];
    volatile sig_atomic_t was_told;
    bool is_watched;
    KzTakesFault *takes;
} crash;

static void put(const char *text)
{
    ssize_t written = write(STDOUT_FILENO, text, strlen(text));
    (void)written;
}

/* Where it was: in the driver's own code there, or in a call of it. */
static void put_source(const void *at)
{
    const KzPlace *place = &kz_me->place;
    const void *code = at ? (const uint8_t *)at + 1 : NULL;
    char line[100], marked[80], callers[200];
    int used;
    if (!code || !kz_find_source(kz_in_file(code), line, sizeof line))
        code = place->from && kz_find_source(kz_in_file(place->from), line, sizeof line) ? place->from : NULL;
    if (!code)
        return;
    put(", at ");
    put(line);
    used = snprintf(marked, sizeof marked, KZ_FROM "%lx", (unsigned long)kz_in_file(code));
    for (unsigned caller = 0; caller < 2 && place->callers[0] && place->callers[caller]; caller++)
        used += snprintf(marked + used, sizeof marked - (size_t)used, KZ_FROM "%lx", (unsigned long)kz_in_file(place->callers[caller]));
    kz_read_callers(marked, callers, sizeof callers);
    put(callers);
}

/* The request, with its line in the file. */
static void put_request(const KzPlace *place)
{
    char line[32];
    if (place->request && place->line) {
        snprintf(line, sizeof line, ", line %u: ", place->line);
        put(line);
    } else if (place->request) {
        put(", ");
    }
    if (place->request)
        put(place->request);
}

bool kz_put_place(const char *head, const char *what, const void *at)
{
    char marked[256], place[256];
    if (__atomic_exchange_n(&crash.was_told, 1, __ATOMIC_SEQ_CST))
        return false;
    put(head);
    if (what) {
        put(" ");
        put(what);
    }
    put(": ");
    kz_place_text(marked, sizeof marked);
    kz_unmark(place, sizeof place, marked);
    put(place);
    put_source(at);
    if (kz_me->place.path) {
        put(", \\");
        put(kz_me->place.path);
    }
    put_request(&kz_me->place);
    put("\n");
    return true;
}

const char *kz_signal_name(int signal)
{
    switch (signal) {
    case SIGSEGV:
        return "SIGSEGV";
    case SIGBUS:
        return "SIGBUS";
    case SIGABRT:
        return "SIGABRT";
    case SIGFPE:
        return "SIGFPE";
    case SIGTRAP:
        return "SIGTRAP";
    default:
        return "SIGILL";
    }
}

/* Where the program stood. */
const void *kz_code_at(const void *context)
{
#ifdef __x86_64__
    return (const void *)(uintptr_t)((const ucontext_t *)context)->uc_mcontext.gregs[REG_RIP];
#else
    (void)context;
    return NULL;
#endif
}

/* The stack there; NULL if that is used up. */
static const void *stack_of(const siginfo_t *information, const void *context)
{
#ifdef __x86_64__
    uintptr_t stack = (uintptr_t)((const ucontext_t *)context)->uc_mcontext.gregs[REG_RSP];
    return information && (uintptr_t)information->si_addr - stack + NEAR < 2 * NEAR ? NULL : (const void *)stack;
#else
    (void)information, (void)context;
    return NULL;
#endif
}

/* Who called the driver's function that the code is in, or that called what isn't a driver's. */
static void note_callers(const void *context, const void *stack)
{
#ifdef __x86_64__
    if (stack && kz_me->inside == 0 && (kz_is_binary(kz_code_at(context)) || kz_is_stub(kz_code_at(context))))
        kz_binaries.note_callers_at(context);
    else if (stack && kz_me->inside == 0)
        kz_note_callers_of(kz_me->place.callers, (const void *)((const ucontext_t *)context)->uc_mcontext.gregs[REG_RBP], stack);
#else
    (void)context, (void)stack;
#endif
}

static const void *driver_at(const void *context, const void *stack)
{
    const void *at = kz_caller(kz_code_at(context)), *call = NULL;
    if (stack && kz_me->inside == 0 && !kz_is_binary(at) && !kz_is_drivers_code(at))
        call = kz_drivers_call(stack);
    note_callers(context, stack);
    return call ? (const uint8_t *)call - 1 : at;
}

const void *kz_driver_at(const void *context)
{
    return driver_at(context, stack_of(NULL, context));
}

/* Memory that was given back was touched: that is told, and the program goes on. */
static bool is_touch(int signal, const siginfo_t *information, const void *context)
{
    const void *stack = stack_of(information, context);
    const void *caller = stack ? *(const void *const *)stack : NULL; /* of a copy, which keeps nothing there */
#ifdef __x86_64__
    bool is_written = ((const ucontext_t *)context)->uc_mcontext.gregs[REG_ERR] & 2;
#else
    bool is_written = false;
#endif
    note_callers(context, stack);
    return signal == SIGSEGV && kz_touched(&(KzTouched){information->si_addr, kz_code_at(context), caller, is_written});
}

/* Also what a binary may not do by itself in this process, or takes for an exception. */
static bool is_carried_on(int signal, siginfo_t *information, void *context)
{
    if (!kz_is_binary(kz_code_at(context)) && !kz_is_stub(kz_code_at(context)) && !kz_is_binary(information->si_addr))
        return is_touch(signal, information, context) || crash.takes(signal, information, context);
    return kz_binaries.carry_out(signal, information, context) || is_touch(signal, information, context) || kz_binaries.raise(signal, information, context);
}

/* What was there before goes on: a sanitizer's report, or the end. */
static void handle(int signal, siginfo_t *information, void *context)
{
    if (is_carried_on(signal, information, context))
        return;
    kz_put_place("CRASH", kz_signal_name(signal), driver_at(context, stack_of(information, context)));
    for (size_t at = 0; at < sizeof signals / sizeof signals[0]; at++) {
        if (signals[at] != signal)
            continue;
        if (crash.before[at].sa_flags & SA_SIGINFO && crash.before[at].sa_sigaction) {
            crash.before[at].sa_sigaction(signal, information, context);
            return;
        }
        sigaction(signal, &(struct sigaction){.sa_handler = SIG_DFL}, NULL);
    }
    raise(signal);
}

/* The address sanitizer calls this before its report. */
void __asan_on_error(void);
void __asan_on_error(void)
{
    kz_put_place("CRASH", "address sanitizer", NULL);
}

/* It stays: several threads at once may touch pages that are shut. A crash inside of it ends the program. */
static void watch(int signal)
{
    sigaction(signal, &(struct sigaction){.sa_sigaction = handle, .sa_flags = SA_SIGINFO | SA_ONSTACK}, NULL);
}

void kz_watch_crashes(KzTakesFault *takes)
{
    crash.takes = takes;
    setvbuf(stdout, NULL, _IOLBF, 0);
    crash.was_told = 0;
    if (crash.is_watched)
        return;
    crash.is_watched = true;
    sigaltstack(&(stack_t){.ss_sp = crash.stack, .ss_size = sizeof crash.stack}, NULL);
    for (size_t at = 0; at < sizeof signals / sizeof signals[0]; at++) {
        sigaction(signals[at], NULL, &crash.before[at]);
        watch(signals[at]);
    }
}
