/* Filters: loading, registration and unloading. */
#ifndef KZ_MANAGER_FILTER_H
#define KZ_MANAGER_FILTER_H

#include "host.h"

uint64_t kz_filter_phase(PFLT_FILTER filter);
uint32_t kz_load(const char *name, const char *altitude, uint64_t *number, NTSTATUS *other);
uint32_t kz_load_inside(const char *name, const char *altitude, uint64_t *number, NTSTATUS *other);
uint32_t kz_unload(PFLT_FILTER filter);
void kz_unload_all(void);
const FLT_OPERATION_REGISTRATION *kz_registered(PFLT_FILTER filter, UCHAR major);
/* Whether the filter registered a callback for it, and isn't left out by its flags. */
bool kz_hears(PFLT_FILTER filter, const KzOp *op);
bool kz_is_filter(PFLT_FILTER filter);

#endif
