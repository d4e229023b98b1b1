/* What filters, volumes and instances are, by the kit's classes of information. */
#ifndef KZ_KIT_AGGREGATE_H
#define KZ_KIT_AGGREGATE_H

#include "host.h"

/* Puts it into a buffer, and says how many bytes it takes; STATUS_BUFFER_TOO_SMALL where it doesn't fit, and then nothing is put. */
typedef NTSTATUS KzGive(void *found, uint32_t class, uint8_t *room, uint32_t size, uint32_t *returned);
KzGive kz_give_filter, kz_give_volume, kz_give_instance;

#endif
