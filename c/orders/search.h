/* The search through all orders, and what it found. */
#ifndef ORDERS_SEARCH_H
#define ORDERS_SEARCH_H

#include "world.h"

/* A thread that waits where no thread can go on. */
typedef struct {
    OrText name;
    char *line, *answer;
} OrWait;

typedef enum { OR_STUCK, OR_MISUSED, OR_LEAKED, OR_FAULTS } OrFaultKind;

/* At how many ends it was found, and the run with the fewest switches between threads. */
typedef struct {
    OrFaultKind kind;
    uint64_t count, switches;
    OR_LIST(uint32_t) ran;
    OR_LIST(OrWait) waits;
} OrFault;

typedef struct {
    const OrScenario *scenario;
    bool is_first, is_whole; /* it ends with the first fault; nothing is left to be tried */
    uint64_t states, steps, ends;
    OrFault faults[OR_FAULTS]; /* in the order in which they were found */
    size_t count;
} OrSearch;

/* Takes all orders, until it is told to stop. */
void or_search(OrSearch *search, const volatile int *stop);
void or_report(const OrSearch *search);

/* states.c: whether the state wasn't met before. */
bool or_is_new(OrKey key);

#endif
