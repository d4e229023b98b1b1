/* What a status means to a program. */
#ifndef KZ_MOUNT_ERROR_H
#define KZ_MOUNT_ERROR_H

#include <stdint.h>

/* The errno of a status; EPROTO of what is none. */
int errno_of(uint8_t status);
/* The same where a name is looked up: what can't be there isn't there. */
int errno_of_look(uint8_t status);

#endif
