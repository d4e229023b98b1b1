/* Renames. */
#ifndef KZ_MOUNT_RENAME_H
#define KZ_MOUNT_RENAME_H

#include "call.h"

/* EXDEV, so that `mv` copies, of a server that knows no rename, unless -o copyrename or -o below has it copied here. */
void name_rename(fuse_req_t request, fuse_ino_t folder, const char *name, fuse_ino_t to_folder, const char *to, unsigned flags);
/* Whether it is open still when some time has gone by: the kernel tells of a last close late. */
bool stays_open(Nodes *nodes, const char *path, bool (*is_open)(Nodes *nodes, const char *path));
/* Gives a file another name: 0 or an errno. EBUSY where the server can't as long as one of both is open. Nothing is lost then. */
int rename_file(Mount *mount, const char *path, const char *to, bool is_new);

#endif
