/* The clock: when a run began, and how much time has passed since. */
#ifndef KZ_CORE_CLOCK_H
#define KZ_CORE_CLOCK_H

#include "host.h"

#define KZ_BEGINS 134116992000000000LL /* 2026-01-01 00:00:00 UTC */
#define KZ_MILLISECOND 10000LL
void kz_tick(void);
LONGLONG kz_first_time(void); /* when a run begins */
LONGLONG kz_time(void);
uint64_t kz_now(void);        /* how many milliseconds passed since */
/* What is due next, up to then, comes: a timer, or the end of a thread's wait. False if nothing is. */
bool kz_pass_to_next(uint64_t until);
void kz_pass(uint64_t milliseconds);
/* Lets that many units of 100 nanoseconds pass; what is due meanwhile comes, one after the other. */
void kz_pass_units(LONGLONG units);
/* A client waits from now on, in which timers that are set may fire: so many of them, since one that fires again and again need not end the wait. It waits no more. */
void kz_begin_to_fire(void);
void kz_end_to_fire(void);

#endif
