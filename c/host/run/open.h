/* A run: how it begins, and what is looked at and given back at its end. */
#ifndef KZ_RUN_OPEN_H
#define KZ_RUN_OPEN_H

#include "host.h"

void kz_end(void);

#endif
