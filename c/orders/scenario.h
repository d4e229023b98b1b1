/* A scenario: lines of a script, and threads whose lines may meet in any order. */
#ifndef ORDERS_SCENARIO_H
#define ORDERS_SCENARIO_H

#include "orders.h"

typedef struct {
    unsigned number; /* in the file, from 1 */
    OrText text;
} OrLine;

typedef struct {
    OrText name;
    OrLine *lines;
    size_t count;
    bool repeats; /* nobody waits for its end */
} OrRoutine;

/* What an instance's callback does; of all operations where the verb has no text. */
typedef struct {
    OrText instance, kind, verb;
    OrLine *lines;
    size_t count;
} OrCallback;

typedef struct {
    OrText instance, answer;
} OrPlan;

typedef struct {
    OR_LIST(OrLine) setup;
    OR_LIST(OrRoutine) threads;
    OR_LIST(OrCallback) callbacks;
    OR_LIST(OrPlan) plans;
} OrScenario;

/* Reads one from a text that stays. */
void or_read_scenario(OrScenario *scenario, OrText text);
const OrCallback *or_callback(const OrScenario *scenario, OrText instance, const char *kind, OrText verb);
OrText or_plan(const OrScenario *scenario, OrText instance);

#endif
