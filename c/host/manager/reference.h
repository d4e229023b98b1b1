/* References to objects, which are counted: each object that was referenced has a line, with who took the last one. */
#ifndef KZ_MANAGER_REFERENCE_H
#define KZ_MANAGER_REFERENCE_H

#include "host.h"

/* One reference more, or less: how many there are then. That none was taken is told. */
LONG_PTR kz_take_object(PVOID object, bool is_flt, const char *call);
LONG_PTR kz_let_go_object(PVOID object, const char *call);
bool kz_is_referenced(const void *object);
extern const struct KzModule kz_reference_module;

#endif
