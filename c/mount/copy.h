/* Renames by a copy, for servers that know no other. */
#ifndef KZ_MOUNT_COPY_H
#define KZ_MOUNT_COPY_H

#include "call.h"

/* Copies a file on the call's line, alone at the gates of both: 0 or an errno, ENOSPC where there is no room for the copy. Nothing is lost then. Both handles are the line's. */
int copy_file(Call *call, const char *path, const char *to, bool is_new);

#endif
