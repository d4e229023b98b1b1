/* Events, semaphores and mutexes: what can be waited for. */
#ifndef KZ_KIT_DISPATCHER_H
#define KZ_KIT_DISPATCHER_H

#include "host.h"

/* What can be waited for, by the kit's numbers. */
enum { KZ_EVENT_KEEPS = 0, KZ_EVENT_RESETS = 1, KZ_MUTANT = 2, KZ_SEMAPHORE = 5, KZ_TIMER_KEEPS = 8, KZ_TIMER_RESETS = 9 };

void kz_make_dispatcher(PDISPATCHER_HEADER object);
/* Whether it was initialized; that it wasn't is told. */
bool kz_check_dispatcher(const DISPATCHER_HEADER *object, const char *kind, const char *call);

#endif
