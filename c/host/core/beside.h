/* Threads beside the requests: those of user programs, and a driver's own. In order one alone has the turn, and keeps it until it waits; under the explorer each is a client; under a load
 * all run at once. */
#ifndef KZ_CORE_BESIDE_H
#define KZ_CORE_BESIDE_H

#include "host.h"
#include "core/client.h"

#include <pthread.h>

struct KzThread {
    KzThread *next;
    KzClient client;
    char name[32];
    void (*life)(void *given);
    void *given;
    bool has_ended;
    bool is_frozen; /* it never goes on any more: what it runs in is gone */
    bool is_resting, is_gone; /* it waits for the turn; it ends there */
    bool wants_input;         /* it waits for a line of its console, which a request may bring */
    pthread_t thread; /* in order, and under a load */
    /* In order: what it waits for, where it waits. */
    KzCan *can;
    void *what;
};

/* NULL where there are as many as there is room for. Its name is the text, with a number where several have it. */
KzThread *kz_new_thread(const char *name, uint64_t process, uint64_t thread, void (*life)(void *given), void *given);
/* Lets each one that can go on do so until it waits; false if none could. */
bool kz_run_threads(void);
void kz_freeze(KzThread *thread);
/* Whether a request may bring what a thread of that process waits for. */
bool kz_wants_input(uint64_t process);
/* As kz_can of a wait: whether the thread's life is over. */
bool kz_has_thread_ended(void *thread);
/* The first deadline of a wait, if one is there. */
bool kz_next_deadline(uint64_t *milliseconds);
/* All end, those that rest where they are; their memory is given back. */
/* The life of the thread, as its scheduler begins it. */
void kz_live(KzThread *thread);
bool kz_can_thread_go(KzThread *thread);
/* In order. */
void kz_begin_thread(KzThread *thread);
bool kz_let_thread(KzThread *thread);
bool kz_rest(KzCan *can, void *what);
/* From in order to a load, where all run at once, and back, where each stands where it waits. */
void kz_free_turns(bool is);
void kz_take_turns(void);
bool kz_is_to_rest(void);
extern const struct KzModule kz_beside_module;

#endif
