/* A run of a scenario, as far as its threads have come. */
#ifndef ORDERS_WORLD_H
#define ORDERS_WORLD_H

#include "script.h"
#include "thread.h"

enum { OR_LINE_ROOM = 2 * OR_LONGEST };

struct OrWorld {
    const OrScenario *scenario;
    OrScript script;
    OrThread *threads;
    OR_LIST(OrText) verbs; /* by operation, the word that began it */
    OR_LIST(uint32_t) ran; /* whose line each was */
    uint64_t misused;
};

/* A run begins with the set-up; it ends as another one begins. */
void or_begin_world(OrWorld *world, const OrScenario *scenario);
void or_end_world(OrWorld *world);
/* Whether the thread went on. Where it didn't, nothing has changed. */
bool or_go_on(OrWorld *world, uint32_t thread);
/* What a waiting thread's line answers. */
OrText or_ask(OrWorld *world, uint32_t thread, OrText *line, char *room);
bool or_waits(const OrWorld *world, uint32_t thread);
OrKey or_key(OrWorld *world);
OrText or_verb(const OrWorld *world, OrText operation);

#endif
