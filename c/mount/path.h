/* Paths as the server takes them. */
#ifndef KZ_MOUNT_PATH_H
#define KZ_MOUNT_PATH_H

#include "wire/client.h"

#include <stdbool.h>

uint64_t hash_of(const char *path);
/* Of each part of a path, in bytes. */
#define LONGEST_NAME 255

/* The path of a name in a folder, whose path is empty for the root: 0, ENAMETOOLONG, or EINVAL where the server takes no such letter. One that is wide has letters beyond ASCII, and longer paths. */
int path_join(char room[LONGEST_WIDE_PATH + 1], const char *folder, const char *name, bool is_wide);
/* Whether a list `a:b:b/c` has the path. */
bool path_is_in(const char *list, const char *path);

#endif
