/* Oplocks of a filter's own. */
#ifndef KZ_KIT_OPLOCK_H
#define KZ_KIT_OPLOCK_H

#include "host.h"

extern const struct KzModule kz_own_oplock_module;

#endif
