/* Threads of a driver's own: each is a thread of the system's process beside the requests. */
#ifndef KZ_KIT_THREAD_H
#define KZ_KIT_THREAD_H

#include "host.h"

extern const struct KzModule kz_thread_module;

#endif
