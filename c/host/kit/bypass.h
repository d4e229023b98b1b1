/* What a filter has to do with bypass I/O. */
#ifndef KZ_KIT_BYPASS_H
#define KZ_KIT_BYPASS_H

#include "host.h"

extern const struct KzModule kz_bypass_module;

#endif
