/* Deferred procedure calls: they run once the request is answered, at DISPATCH_LEVEL. */
#ifndef KZ_KIT_DPC_H
#define KZ_KIT_DPC_H

#include "host.h"

/* Runs a deferred procedure call; false if none waits. */
bool kz_run_dpc(void);
bool kz_has_dpc(void);
void kz_run_dpcs(void);
/* Memory is given back: no DPC that is queued lies in it. */
void kz_check_dpcs(const void *memory, size_t size);
extern const struct KzModule kz_dpc_module;

#endif
