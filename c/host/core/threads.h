/* Clients as threads, and a load that they carry out. */
#ifndef KZ_CORE_THREADS_H
#define KZ_CORE_THREADS_H

#include "host.h"
#include "core/client.h"

extern const KzScheduler kz_threads;
void kz_use_threads(uint64_t seed);
void kz_end_waits(void);
uint64_t kz_moves(void);

#endif
