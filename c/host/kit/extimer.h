/* Timers of Ex, which the kit allocates: one of Ke with a deferred procedure call of its own. */
#ifndef KZ_KIT_EXTIMER_H
#define KZ_KIT_EXTIMER_H

#include "host.h"

/* That of Ex whose deferred procedure call it is; NULL if it is of none. */
PEX_TIMER kz_timer_of(const KDPC *dpc);
/* Its callback is about to be called; it has returned. */
void kz_timer_begins(PEX_TIMER timer);
void kz_timer_is_over(PEX_TIMER timer);
/* The driver's own routine that the deferred procedure call leads to; of any other it is that call's. */
PVOID kz_dpc_routine(const KDPC *dpc);
/* Calls it. */
void kz_call_dpc(PRKDPC dpc);
/* By which call such a timer, or another, would have been taken back. */
const char *kz_ends_timer(const KTIMER *timer);

#endif
