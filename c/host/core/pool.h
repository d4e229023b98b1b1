/* Pools: memory that drivers take. */
#ifndef KZ_CORE_POOL_H
#define KZ_CORE_POOL_H

#include "host.h"

void kz_free_pool(PVOID memory, const char *call);
/* What the call makes is nobody's memory, and has to be unmade by its filter: a mark for that, which kz_free_pool takes off. */
PVOID kz_owe(void);
void kz_pay(PVOID mark, const char *call);

#endif
