/* Timers, and whether one may fire. */
#ifndef KZ_KIT_TIMER_H
#define KZ_KIT_TIMER_H

#include "host.h"

bool kz_has_timer(void);
bool kz_is_set(const KTIMER *timer);
/* A client waits, and the next timer that is set may fire meanwhile. */
bool kz_may_fire(void);
/* What somebody waits for who runs work items, DPCs and timers: that there is one. */
bool kz_can_run(void *unused);
void kz_fire(void);
extern const struct KzModule kz_timer_module;

#endif
