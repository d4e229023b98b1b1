/* Whether anything of the drivers' leads to an object. */
#ifndef KZ_CORE_POINTER_H
#define KZ_CORE_POINTER_H

#include "host.h"

/* Whether a variable, or memory that was allocated, has the address of that object, or of what it lies in. A variable itself is led to by its name. Where it isn't known it is taken as led to. */
bool kz_is_pointed_to(const void *object);
/* Whether it lies in a variable of a driver's, or in memory that one allocated. */
bool kz_is_drivers_memory(const void *address);

#endif
