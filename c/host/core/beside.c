/* Threads beside the requests. In order a thread of the system has the turn or waits for it: so the sanitizers see each one's stack, and every run is the same. */
#include "core/beside.h"

#include "core/client.h"
#include "core/clock.h"
#include "core/memory.h"
#include "core/module.h"
#include "core/state.h"
#include "core/threads.h"

#include <stdlib.h>
#include <time.h>

static struct {
    KzThread *first;
    unsigned count;
    /* Who has the turn; NULL is the client of the requests. All under the mutex. */
    pthread_mutex_t mutex;
    pthread_cond_t changed;
    KzThread *running;
    bool is_free;     /* all run at once */
    unsigned resting; /* how many wait for the turn */
} turns = {.mutex = PTHREAD_MUTEX_INITIALIZER, .changed = PTHREAD_COND_INITIALIZER};

static void say_name(KzThread *made, const char *name)
{
    unsigned same = 1;
    for (const KzThread *one = turns.first; one; one = one->next) {
        size_t length = strcspn(one->name, ".");
        same += length == strlen(name) && strncmp(one->name, name, length) == 0;
    }
    snprintf(made->name, sizeof made->name, same > 1 ? "%.20s.%u" : "%.20s", name, same);
}

static bool is_taken(unsigned number)
{
    const KzThread *one = turns.first;
    while (one && !(one->client.number == number && !one->has_ended))
        one = one->next;
    return one != NULL;
}

/* A number is free again once its thread has ended; but for the explorer, which knows a client by it to the end of a run. */
static bool free_number(unsigned *number)
{
    bool is_for_good = kz_scheduler != &kz_in_order && kz_scheduler != &kz_threads;
    *number = KZ_FIRST_THREAD;
    while (*number < KZ_FIRST_THREAD + KZ_THREADS && (is_for_good ? *number < KZ_FIRST_THREAD + turns.count : is_taken(*number)))
        ++*number;
    if (*number == KZ_FIRST_THREAD + KZ_THREADS)
        return false;
    turns.count++;
    return true;
}

KzThread *kz_new_thread(const char *name, uint64_t process, uint64_t thread, void (*life)(void *given), void *given)
{
    unsigned number;
    if (!free_number(&number))
        return NULL;
    KzThread *made = kz_memory(sizeof *made), **place = &turns.first;
    say_name(made, name);
    made->life = life;
    made->given = given;
    kz_new_client(&made->client, made->name, number);
    made->client.place.worker = kz_helper();
    made->client.process = process;
    made->client.thread = thread;
    made->client.beside = made;
    while (*place)
        place = &(*place)->next;
    *place = made;
    kz_scheduler->touch(made, 0, KZT_GIVES);
    kz_scheduler->begin(made);
    return made;
}

void kz_live(KzThread *thread)
{
    kz_scheduler->touch(thread, 0, KZT_TAKES);
    thread->life(thread->given);
    KZ_INSIDE();
    thread->has_ended = true;
    kz_helped(thread->client.place.worker);
    kz_scheduler->touch(thread, 0, KZT_GIVES);
    kz.changes++;
}

bool kz_has_thread_ended(void *thread)
{
    return ((KzThread *)thread)->has_ended;
}

/* Whether its wait is over, or its time. */
bool kz_can_thread_go(KzThread *thread)
{
    KzClient *before = kz_me;
    kz_me = &thread->client;
    bool can = !thread->has_ended && !thread->is_frozen && (!thread->can || thread->can(thread->what) || (thread->client.timeout && thread->client.until <= kz_now()));
    kz_me = before;
    return can;
}

void kz_freeze(KzThread *thread)
{
    thread->is_frozen = true;
}

bool kz_run_threads(void)
{
    bool has_moved = false;
    for (KzThread *one = turns.first; one; one = one->next)
        has_moved |= kz_scheduler->let(one);
    return has_moved;
}

bool kz_next_deadline(uint64_t *milliseconds)
{
    bool is_there = false;
    for (const KzThread *one = turns.first; one; one = one->next)
        if (!one->has_ended && !one->is_frozen && one->client.timeout && (!is_there || one->client.until < *milliseconds)) {
            *milliseconds = one->client.until;
            is_there = true;
        }
    return is_there;
}

/* ---- Turns. */
static void wait_for_turn(KzThread *me)
{
    turns.resting++;
    me->is_resting = true;
    pthread_cond_broadcast(&turns.changed);
    while (turns.running != me && !turns.is_free && !me->is_gone)
        pthread_cond_wait(&turns.changed, &turns.mutex);
    me->is_resting = false;
    turns.resting--;
    if (!me->is_gone)
        return;
    pthread_mutex_unlock(&turns.mutex);
    pthread_exit(NULL);
}

static void *live(void *given)
{
    KzThread *me = given;
    kz_me = &me->client;
    pthread_mutex_lock(&turns.mutex);
    wait_for_turn(me);
    pthread_mutex_unlock(&turns.mutex);
    kz_live(me);
    pthread_mutex_lock(&turns.mutex);
    if (turns.running == me)
        turns.running = NULL;
    pthread_cond_broadcast(&turns.changed);
    pthread_mutex_unlock(&turns.mutex);
    return NULL;
}

void kz_begin_thread(KzThread *thread)
{
    if (pthread_create(&thread->thread, NULL, live, thread) != 0) {
        fprintf(stderr, "no thread\n");
        exit(1);
    }
}

bool kz_let_thread(KzThread *thread)
{
    if (!kz_can_thread_go(thread))
        return false;
    pthread_mutex_lock(&turns.mutex);
    turns.running = thread;
    pthread_cond_broadcast(&turns.changed);
    while (turns.running)
        pthread_cond_wait(&turns.changed, &turns.mutex);
    pthread_mutex_unlock(&turns.mutex);
    return true;
}

/* A thread gives the turn back, and goes on once it has it again. */
bool kz_rest(KzCan *can, void *what)
{
    KzThread *me = kz_me->beside;
    pthread_mutex_lock(&turns.mutex);
    me->can = can;
    me->what = what;
    if (turns.running == me)
        turns.running = NULL;
    wait_for_turn(me);
    me->can = NULL;
    pthread_mutex_unlock(&turns.mutex);
    return can(what);
}

void kz_free_turns(bool is)
{
    pthread_mutex_lock(&turns.mutex);
    __atomic_store_n(&turns.is_free, is, __ATOMIC_RELEASE);
    pthread_cond_broadcast(&turns.changed);
    pthread_mutex_unlock(&turns.mutex);
}

bool kz_is_to_rest(void)
{
    return kz_me->beside && !__atomic_load_n(&turns.is_free, __ATOMIC_ACQUIRE);
}

bool kz_wants_input(uint64_t process)
{
    for (const KzThread *one = turns.first; one; one = one->next)
        if (one->client.process == process && one->wants_input)
            return true;
    return false;
}

static unsigned alive(void)
{
    unsigned number = 0;
    for (const KzThread *one = turns.first; one; one = one->next)
        number += !__atomic_load_n(&one->has_ended, __ATOMIC_ACQUIRE);
    return number;
}

/* Waits until each stands where it waits, or has ended; a thread that runs on without a call is left. */
void kz_take_turns(void)
{
    struct timespec until;
    clock_gettime(CLOCK_REALTIME, &until);
    until.tv_sec += 5;
    pthread_mutex_lock(&turns.mutex);
    while (turns.resting < alive() && pthread_cond_timedwait(&turns.changed, &turns.mutex, &until) == 0)
        ;
    pthread_mutex_unlock(&turns.mutex);
}

/* False: it runs on, and its stack stands on its memory. */
static bool end_thread(KzThread *one)
{
    pthread_mutex_lock(&turns.mutex);
    bool is_over = one->has_ended || one->is_resting;
    one->is_gone = true;
    pthread_cond_broadcast(&turns.changed);
    pthread_mutex_unlock(&turns.mutex);
    if (is_over && one->thread)
        pthread_join(one->thread, NULL);
    return is_over;
}

static void forget_threads(void)
{
    while (turns.first) {
        KzThread *one = turns.first;
        turns.first = one->next;
        if (end_thread(one))
            free(one);
    }
    turns.count = 0;
}

const KzModule kz_beside_module = {.free = forget_threads, .goes_on = kz_run_threads};
