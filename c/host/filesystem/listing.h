/* The names of the files in a folder. */
#ifndef KZ_LISTING_H
#define KZ_LISTING_H

#include <stdbool.h>
#include <stddef.h>
#include <stdint.h>

/* The names that are paths, ascending by bytes, a line's end behind each: 0, EOVERFLOW where the room is too small, or another errno. Links are listed; folders, pipes and devices aren't. */
int kz_list_names(int folder, uint8_t *room, size_t size, size_t *length);

#endif
