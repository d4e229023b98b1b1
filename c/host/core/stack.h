/* The kernel's stack: how much of it a driver's own code has. */
#ifndef KZ_CORE_STACK_H
#define KZ_CORE_STACK_H

#include "host.h"

/* A driver's function is called from there: it begins with a stack of its own. */
void kz_begin_stack(const void *frame);
/* The driver's code goes on; the host is inside, whose frames don't count. */
void kz_bound_stack(void);
void kz_free_stack(void);
extern const struct KzModule kz_stack_module;

#endif
