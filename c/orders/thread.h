/* Where a thread is: which line it makes next, and what it was answered so far. */
#ifndef ORDERS_THREAD_H
#define ORDERS_THREAD_H

#include "scenario.h"

/* 128 bits of a checksum of what was added to it. */
typedef struct {
    uint64_t one, other;
} OrKey;
void or_add_key(OrKey *key, const void *bytes, size_t size);

/* A `go` takes its steps one by one: `next`, what that gives, and at the end `collect`. */
typedef enum { OR_LINE, OR_NEXT, OR_CALLBACK, OR_CALLBACK_PLANNED, OR_CALL, OR_COLLECT, OR_OVER } OrTurn;

typedef struct {
    const OrRoutine *routine;
    size_t at; /* its line */
    OrTurn turn;
    const OrCallback *callback;
    size_t in_callback;
    OrText worker, operation; /* of a `go` under way: the scenario's, or in `begun` */
    char begun[32], instance[32];
    bool is_post;
    char told[128][32]; /* by its letter the last id that it was answered */
    OrKey seen;
} OrThread;

typedef struct OrWorld OrWorld;

void or_begin_thread(OrThread *thread, const OrRoutine *routine);
/* The line that it makes next, put into `room`; none where it is over. */
OrText or_line_of(const OrWorld *world, const OrThread *thread, char *room, size_t size);
unsigned or_number_of(const OrThread *thread);
/* It was answered so, and is before its next line. */
void or_took(const OrWorld *world, OrThread *thread, OrText line, OrText answer);

#endif
