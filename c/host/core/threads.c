/* Clients as threads. One at a time is inside the host; none is while a driver's code runs. Under the thread sanitizer the host's own mutex orders nothing between drivers: only
 * what orders them on Windows too is shown to it. */
#include "core/threads.h"

#include "core/beside.h"
#include "core/client.h"
#include "core/said.h"

#include <pthread.h>
#include <time.h>

/* There under the thread sanitizer alone. */
extern void AnnotateIgnoreReadsBegin(const char *file, int line) __attribute__((weak));
extern void AnnotateIgnoreReadsEnd(const char *file, int line) __attribute__((weak));
extern void AnnotateIgnoreWritesBegin(const char *file, int line) __attribute__((weak));
extern void AnnotateIgnoreWritesEnd(const char *file, int line) __attribute__((weak));
extern void AnnotateIgnoreSyncBegin(const char *file, int line) __attribute__((weak));
extern void AnnotateIgnoreSyncEnd(const char *file, int line) __attribute__((weak));
extern void __tsan_acquire(void *object) __attribute__((weak));
extern void __tsan_release(void *object) __attribute__((weak));
extern void __tsan_read_range(void *memory, long size) __attribute__((weak));
extern void __tsan_write_range(void *memory, long size) __attribute__((weak));

static struct {
    pthread_mutex_t mutex;
    pthread_cond_t changed;
    unsigned waiting; /* under the mutex */
    uint64_t seed;
    uint64_t moves; /* of all clients: read by the one that looks whether anybody goes on */
    bool is_over;
} run = {.mutex = PTHREAD_MUTEX_INITIALIZER, .changed = PTHREAD_COND_INITIALIZER};
static _Thread_local uint64_t chance;

static void ignore(bool is)
{
    if (!AnnotateIgnoreSyncBegin)
        return;
    if (is) {
        AnnotateIgnoreReadsBegin(__FILE__, __LINE__);
        AnnotateIgnoreWritesBegin(__FILE__, __LINE__);
        AnnotateIgnoreSyncBegin(__FILE__, __LINE__);
    } else {
        AnnotateIgnoreSyncEnd(__FILE__, __LINE__);
        AnnotateIgnoreWritesEnd(__FILE__, __LINE__);
        AnnotateIgnoreReadsEnd(__FILE__, __LINE__);
    }
}

static void lock(void)
{
    ignore(true);
    pthread_mutex_lock(&run.mutex);
}

static void unlock(void)
{
    if (run.waiting)
        pthread_cond_broadcast(&run.changed);
    pthread_mutex_unlock(&run.mutex);
    ignore(false);
}

static bool always(void *unused)
{
    (void)unused;
    return true;
}

/* Now and then a thread lets others go first, so that more orders come up. One beside the requests stands here once the load is over. */
static void point(const char *name, const void *from)
{
    (void)name, (void)from;
    if (kz_me == &kz_first)
        return;
    if (kz_is_to_rest())
        kz_rest(always, NULL);
    if (!chance)
        chance = (run.seed + kz_me->number) * 0x9e3779b97f4a7c15ULL | 1;
    chance ^= chance << 13;
    chance ^= chance >> 7;
    chance ^= chance << 17;
    __atomic_add_fetch(&run.moves, 1, __ATOMIC_RELAXED);
    if ((chance >> 20) % 64 == 0)
        nanosleep(&(struct timespec){.tv_nsec = (long)((chance >> 30) % 20000)}, NULL);
}

static bool is_late(const struct timespec *until)
{
    struct timespec now;
    clock_gettime(CLOCK_REALTIME, &now);
    return now.tv_sec > until->tv_sec || (now.tv_sec == until->tv_sec && now.tv_nsec >= until->tv_nsec);
}

static bool wait(KzCan *can, void *what, const char *text)
{
    struct timespec until;
    clock_gettime(CLOCK_REALTIME, &until);
    until.tv_nsec += (long)(kz_me->timeout % 1000) * 1000000;
    until.tv_sec += (time_t)(kz_me->timeout / 1000) + until.tv_nsec / 1000000000;
    until.tv_nsec %= 1000000000;
    kz_unmark(kz_me->waits, sizeof kz_me->waits, text);
    bool is_timed = kz_me->timeout > 0, can_go = false;
    run.waiting++;
    while (!(can_go = can(what)) && !run.is_over && !(is_timed && is_late(&until)))
        if (is_timed)
            pthread_cond_timedwait(&run.changed, &run.mutex, &until);
        else
            pthread_cond_wait(&run.changed, &run.mutex);
    run.waiting--;
    kz_me->waits[0] = 0;
    if (can_go || !run.is_over || !kz_me->beside)
        return can_go;
    unlock();
    return kz_rest(can, what);
}

static void touch(const void *object, size_t size, KzTouch how)
{
    if (!__tsan_acquire)
        return;
    bool is_inside = kz_me->inside > 0;
    if (is_inside)
        ignore(false);
    if (how == KZT_TAKES)
        __tsan_acquire((void *)(uintptr_t)object);
    else if (how == KZT_GIVES)
        __tsan_release((void *)(uintptr_t)object);
    else if (how == KZT_READS)
        __tsan_read_range((void *)(uintptr_t)object, (long)size);
    else
        __tsan_write_range((void *)(uintptr_t)object, (long)size);
    if (is_inside)
        ignore(true);
}

static unsigned choose(unsigned count, KzChoice what, const char *name)
{
    (void)count, (void)what, (void)name;
    return 0;
}

static void use(const void *object, KzUse how)
{
    (void)object, (void)how;
}

static void looked(const void *object, const void *from)
{
    (void)object, (void)from;
}

/* It doesn't begin before it is given the turn: there all have it. */
static bool let(KzThread *thread)
{
    (void)thread;
    return false;
}

const KzScheduler kz_threads = {point, wait, touch, use, looked, choose, kz_begin_thread, let, lock, unlock, kz_print, true, true, false};

void kz_use_threads(uint64_t number)
{
    run.seed = number;
    run.is_over = false;
    kz_scheduler = &kz_threads;
    kz_free_turns(true);
}

/* Whoever waits for work, or for ever, is let go. */
void kz_end_waits(void)
{
    lock();
    run.is_over = true;
    unlock();
}

uint64_t kz_moves(void)
{
    return __atomic_load_n(&run.moves, __ATOMIC_RELAXED);
}

/* ---- Volatile accesses are in order with one another, as Microsoft's compiler has them. The sanitizer's library lacks these. */
#define VOLATILE(size)                                                            \
    void __tsan_volatile_read##size(void *at);                                    \
    void __attribute__((weak)) __tsan_volatile_read##size(void *at)               \
    {                                                                             \
        touch(at, size, KZT_TAKES);                                                \
    }                                                                             \
    void __tsan_volatile_write##size(void *at);                                   \
    void __attribute__((weak)) __tsan_volatile_write##size(void *at)              \
    {                                                                             \
        touch(at, size, KZT_GIVES);                                                \
    }                                                                             \
    void __tsan_unaligned_volatile_read##size(void *at);                          \
    void __attribute__((weak)) __tsan_unaligned_volatile_read##size(void *at)     \
    {                                                                             \
        touch(at, size, KZT_TAKES);                                                \
    }                                                                             \
    void __tsan_unaligned_volatile_write##size(void *at);                         \
    void __attribute__((weak)) __tsan_unaligned_volatile_write##size(void *at)    \
    {                                                                             \
        touch(at, size, KZT_GIVES);                                                \
    }
VOLATILE(1)
VOLATILE(2)
VOLATILE(4)
VOLATILE(8)
VOLATILE(16)
