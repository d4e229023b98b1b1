/* What is in the way of a detach, an unload or a dismount: the manager says how many, and the host names those that it knows. */
#ifndef KZ_MANAGER_BUSY_H
#define KZ_MANAGER_BUSY_H

#include "host.h"

uint32_t kz_until_free(const char *name, KazdrinEvent event, PFLT_INSTANCE instance);
const char *kz_busy_text(char *room, size_t size);

#endif
