/* All modules, in the order in which they are asked. */
#ifndef KZ_RUN_MODULES_H
#define KZ_RUN_MODULES_H

#include "host.h"
#include "core/module.h"

extern const KzModule *const kz_modules[];

#endif
