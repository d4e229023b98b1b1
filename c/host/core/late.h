/* Callbacks that don't come to an end, and programs that are told to. */
#ifndef KZ_CORE_LATE_H
#define KZ_CORE_LATE_H

#include "host.h"

/* From now on each second is looked at. SIGINT and SIGTERM say where the program stands, and end it. */
void kz_watch_time(void);
/* The client comes out of a call that its driver made: whether it is too late is looked at. */
void kz_look_at_time(void);
/* Which signal asked the program to end while this thread ran no callback; 0 if none did. */
int kz_ending_signal(void);

#endif
