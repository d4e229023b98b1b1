/* Symbolic links, where the server's folder is named: they are made, read, renamed and removed there itself, since no frame does it. Filters hear of what programs find behind them. The mount follows
 * none: the kernel does, for the program and by its rights. */
#ifndef KZ_MOUNT_LINK_H
#define KZ_MOUNT_LINK_H

#include "call.h"

/* By the mount's own user alone: a server may follow what is made by its own rights. */
void link_make(fuse_req_t request, const char *target, fuse_ino_t folder, const char *name);
void link_read(fuse_req_t request, fuse_ino_t number);
/* Each answers 0 or an errno. */
int link_remove(Mount *mount, const char *path);
/* Nothing has the other name. */
int link_move(Mount *mount, const char *path, const char *to);
/* What has the other name is removed before, a file through the filters. */
int link_rename(fuse_req_t request, const char *path, const char *to, bool is_new);
/* A file gets the name that a link has; where it can't, the link stays. */
int link_replace(Mount *mount, const char *path, const char *to);

#endif
