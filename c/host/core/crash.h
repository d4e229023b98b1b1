/* A crash says where it was, and then ends the program as it would have. */
#ifndef KZ_CORE_CRASH_H
#define KZ_CORE_CRASH_H

#include "host.h"

/* What the processor refused, with the signal's arguments: whether the driver goes on with it. */
typedef bool KzTakesFault(int signal, const void *information, void *context);
void kz_watch_crashes(KzTakesFault *takes);
const char *kz_signal_name(int signal);
/* Where the program stood, of a signal's context. */
const void *kz_code_at(const void *context);
/* The same where it was a driver's own code, else where that made a call; who called it is kept in the client's place. */
const void *kz_driver_at(const void *context);
/* A line that begins so, and says where the client is; once. Safe in a signal's handler. */
bool kz_put_place(const char *head, const char *what, const void *at);

#endif
