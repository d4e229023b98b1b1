/* A load: threads that carry out the clients of a scenario again and again, for so many seconds, and one for work items. */
#include "run/load.h"

#include "core/beside.h"
#include "core/client.h"
#include "core/crash.h"
#include "core/late.h"
#include "core/place.h"
#include "core/threads.h"
#include "manager/perform.h"
#include "manager/work.h"
#include "kit/dpc.h"
#include "kit/timer.h"
#include "run/scenario.h"
#include "run/runfile.h"

#include <pthread.h>
#include <signal.h>
#include <time.h>
#include <unistd.h>

enum { THREADS = 15, STILL = 5 /* seconds in which nobody goes on: then all are stuck */ };

typedef struct {
    KzClient client;
    pthread_t thread;
    char name[48];
    const KzScript *script;
    uint64_t rounds, handle;
    uint64_t was_in;   /* a callback of the request of that number, at the last look */
    double had_taken; /* so much of a processor then */
    bool has_ended; /* under the host's mutex */
} Thread;

static struct {
    Thread threads[THREADS + 1]; /* by the client's number, from 1 on: those of the load, one for work items, and one for the scenario's last requests */
    bool is_finally_there, is_finally_over;
    KzScenario scenario;
    bool is_time; /* that no round begins any more */
} load;

/* A request with $ for the handle of the client's last create. */
KzReply kz_scripted_request(const char *line, uint64_t *handle)
{
    char words[1024];
    const char *dollar = strchr(line, '$');
    if (dollar)
        snprintf(words, sizeof words, "%.*s%llu%s", (int)(dollar - line), line, (unsigned long long)*handle, dollar + 1);
    KzReply reply = kz_request_as(dollar ? words : line, line);
    if (reply.is_handle)
        *handle = reply.information;
    return reply;
}

static void play(Thread *me)
{
    for (size_t at = 0; at < me->script->count; at++)
        kz_scripted_request(me->script->requests[at], &me->handle);
    me->rounds++;
}

static void say_ended(Thread *me)
{
    KZ_INSIDE();
    me->has_ended = true;
}

static void *live(void *given)
{
    Thread *me = given;
    kz_me = &me->client;
    while (!__atomic_load_n(&load.is_time, __ATOMIC_ACQUIRE))
        play(me);
    say_ended(me);
    return NULL;
}

static bool work(void)
{
    KZ_INSIDE();
    if (!kz_wait(kz_can_run, NULL, "a work item"))
        return false;
    if (!kz_run_dpc() && !kz_work())
        kz_fire();
    kz_settle();
    return true;
}

static void *work_on(void *given)
{
    kz_me = &((Thread *)given)->client;
    while (work())
        ;
    return NULL;
}

static void start(unsigned number, const char *name, const KzScript *script, void *(*life)(void *))
{
    Thread *one = &load.threads[number];
    *one = (Thread){.script = script};
    snprintf(one->name, sizeof one->name, script ? "%s-%u" : "%s", script ? script->name : name, number);
    kz_new_client(&one->client, one->name, number);
    pthread_create(&one->thread, NULL, life, one);
}

static double now(void)
{
    struct timespec time;
    clock_gettime(CLOCK_MONOTONIC, &time);
    return (double)time.tv_sec + (double)time.tv_nsec / 1e9;
}

/* ---- The end: whoever still waits may be let go by the last requests of the scenario; else it is stuck. */
static bool have_ended(unsigned count)
{
    KZ_INSIDE();
    for (unsigned at = 1; at <= count; at++)
        if (!load.threads[at].has_ended)
            return false;
    return true;
}

static void *live_finally(void *given)
{
    Thread *me = given;
    kz_me = &me->client;
    for (size_t at = 0; at < load.scenario.clients_count; at++)
        for (size_t line = 0; load.scenario.clients[at].is_finally && line < load.scenario.clients[at].count; line++)
            kz_scripted_request(load.scenario.clients[at].requests[line], &me->handle);
    __atomic_store_n(&load.is_finally_over, true, __ATOMIC_RELEASE);
    return NULL;
}

/* By a client of its own, which waits as others do. Once it is through it may be needed again. */
static void play_finally(unsigned number)
{
    if (load.is_finally_there && !__atomic_load_n(&load.is_finally_over, __ATOMIC_ACQUIRE))
        return;
    if (load.is_finally_there)
        pthread_join(load.threads[number].thread, NULL);
    load.is_finally_there = true;
    load.is_finally_over = false;
    start(number, "finally", NULL, live_finally);
}

static void tell_stuck(unsigned count)
{
    KZ_INSIDE();
    printf("STUCK\n");
    for (unsigned at = 1; at <= count; at++)
        if (!load.threads[at].has_ended && load.threads[at].client.waits[0])
            printf("  %s waits for %s\n", load.threads[at].name, load.threads[at].client.waits);
}

/* Who runs, and waits for nothing: it may come on, or its callback is said to be endless. */
static bool does_anybody_run(unsigned count)
{
    KZ_INSIDE();
    for (unsigned at = 1; at <= count + 1; at++) {
        const KzClient *client = &load.threads[at].client;
        if (!load.threads[at].has_ended && !client->waits[0] && client->inside == 0 && client->place.callback != KZ_IN_NOTHING)
            return true;
    }
    return false;
}

/* How many seconds of a processor a thread has taken. */
static double taken_by(const Thread *one)
{
    clockid_t clock;
    struct timespec taken = {0};
    if (pthread_getcpuclockid(one->thread, &clock) == 0)
        clock_gettime(clock, &taken);
    return (double)taken.tv_sec + (double)taken.tv_nsec / 1e9;
}

/* Once no round begins any more: who stays in the same callback, and isn't through after a while. It sleeps now and then, so that the processor's clock doesn't see it; one that runs all the
 * time is seen by that, with its line, however little of a processor it gets. */
static void look_for_endless(unsigned count, double late)
{
    enum { LONG = 10, LONGEST = 200 };
    KZ_INSIDE();
    for (unsigned at = 1; at <= count; at++) {
        const KzClient *client = &load.threads[at].client;
        bool is_in = !load.threads[at].has_ended && client->place.callback != KZ_IN_NOTHING;
        if (late < 1) {
            load.threads[at].was_in = is_in ? client->place.number : 0;
            load.threads[at].had_taken = is_in ? taken_by(&load.threads[at]) : 0;
        } else if (!is_in || load.threads[at].was_in != client->place.number)
            load.threads[at].was_in = 0;
        if (late < LONG || !load.threads[at].was_in || (late < LONGEST && taken_by(&load.threads[at]) - load.threads[at].had_taken > late / 25))
            continue;
        kz_me = &load.threads[at].client;
        kz_put_place("ENDLESS", NULL, NULL);
        fflush(stdout);
        _exit(6);
    }
}

/* A signal asked the program to end: where each client stands. */
static void tell_interrupted(unsigned count)
{
    char text[256];
    KZ_INSIDE();
    for (unsigned at = 1; at <= count + 1; at++) {
        KzClient *me = kz_me;
        kz_me = &load.threads[at].client;
        size_t length = kz_me->place.callback == KZ_IN_NOTHING ? 0 : kz_place_text(text, sizeof text);
        if (length)
            printf("INTERRUPTED: %s: %s%s%s\n", load.threads[at].name, text, kz_me->waits[0] ? ", waits for " : "", kz_me->waits);
        kz_me = me;
    }
    fflush(stdout);
    signal(kz_ending_signal(), SIG_DFL);
    raise(kz_ending_signal());
}

/* Watches until the time is over and all have ended; false if nobody goes on any more. */
static bool watch(unsigned count, double seconds)
{
    double since = now(), moved = since;
    uint64_t last = 0;
    while (now() - since < seconds || !have_ended(count)) {
        usleep(20000);
        if (now() - since >= seconds)
            __atomic_store_n(&load.is_time, true, __ATOMIC_RELEASE);
        uint64_t moves = kz_moves();
        moved = moves == last ? moved : now();
        last = moves;
        if (now() - moved > 0.5 && load.is_time)
            play_finally(count + 2);
        if (load.is_time)
            look_for_endless(count, now() - since - seconds);
        if (kz_ending_signal())
            tell_interrupted(count);
        if (now() - moved > STILL && (!does_anybody_run(count) || now() - moved > 20 * STILL))
            return false;
    }
    return true;
}

static const KzScript *script_of(unsigned number)
{
    size_t count = 0;
    for (size_t at = 0; at < load.scenario.clients_count; at++)
        count += !load.scenario.clients[at].is_finally;
    size_t place = (number - 1) % count;
    for (size_t at = 0; at < load.scenario.clients_count; at++)
        if (!load.scenario.clients[at].is_finally && place-- == 0)
            return &load.scenario.clients[at];
    return NULL;
}

static void report(unsigned count, double seconds)
{
    uint64_t rounds = 0;
    for (unsigned at = 1; at <= count; at++)
        rounds += load.threads[at].rounds;
    fprintf(stderr, "%u threads, %.0f s: %llu rounds\n", count, seconds, (unsigned long long)rounds);
}

int kz_run_load(const KzDriver *drivers, size_t drivers_count, const char *path, unsigned count, double seconds, uint64_t seed)
{
    int status = kz_read_scenario(path, &load.scenario);
    if (status || !script_of(1))
        return status ? status : 2;
    count = count < 1 ? 1 : count > THREADS - 2 ? THREADS - 2 : count;
    kz_is_quiet = 1;
    if (kz_open(drivers, drivers_count) != 0)
        return 1;
    status = kz_set_up(load.scenario.setup, load.scenario.setup_count);
    if (status) {
        kz_close();
        return status;
    }
    kz_use_threads(seed);
    for (unsigned number = 1; number <= count; number++)
        start(number, NULL, script_of(number), live);
    start(count + 1, "work", NULL, work_on);
    if (!watch(count, seconds)) {
        tell_stuck(count);
        fflush(stdout);
        _exit(6);
    }
    kz_free_turns(false);
    kz_end_waits();
    for (unsigned number = 1; number <= count + 1 + load.is_finally_there; number++)
        pthread_join(load.threads[number].thread, NULL);
    load.is_finally_there = false;
    report(count, seconds);
    kz_take_turns();
    kz_scheduler = &kz_in_order;
    kz_is_quiet = 0;
    status = kz_close();
    kz_free_scenario(&load.scenario);
    return status;
}
