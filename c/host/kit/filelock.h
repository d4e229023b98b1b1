/* A filter's own locks of bytes. */
#ifndef KZ_KIT_FILELOCK_H
#define KZ_KIT_FILELOCK_H

#include "host.h"

extern const struct KzModule kz_filelock_module;

#endif
