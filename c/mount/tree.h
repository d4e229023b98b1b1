/* Folders are made, removed and renamed where the server's folder is named: it is done there itself, since no frame does it. Filters hear of paths, and of no folder. */
#ifndef KZ_MOUNT_TREE_H
#define KZ_MOUNT_TREE_H

#include "call.h"

void tree_make_folder(fuse_req_t request, fuse_ino_t folder, const char *name, mode_t mode);
void tree_remove_folder(fuse_req_t request, fuse_ino_t folder, const char *name);
/* Gives a folder another name, with all that lies in it. Each file is renamed through the filters: 0 or an errno, and then a part of it has its new name. Nothing
 * is done where a deleted file in it is open, or any that would have to be copied, EBUSY, or where something in it is neither a file nor a folder, EXDEV. */
int tree_rename(Mount *mount, const char *path, const char *to, bool is_new);

#endif
