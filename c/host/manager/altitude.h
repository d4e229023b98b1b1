/* Altitudes as decimal numbers of any length. */
#ifndef KZ_MANAGER_ALTITUDE_H
#define KZ_MANAGER_ALTITUDE_H

#include "host.h"

/* Which of two altitudes is higher, by their decimal values. */
int kz_compare_altitudes(const char *a, const char *b);

#endif
