/* Lists and numbers that the kit changes in one piece: under a spin lock, or by themselves. */
#ifndef KZ_KIT_INTERLOCKED_H
#define KZ_KIT_INTERLOCKED_H

#include "host.h"

/* Whoever uses it next comes behind this client. */
void kz_in_order_of(PVOID object);

#endif
