/* What a program is told of a file. */
#ifndef KZ_MOUNT_ATTRIBUTES_H
#define KZ_MOUNT_ATTRIBUTES_H

#include "mount.h"

struct stat attributes_of(const Mount *mount, const Look *look, uint64_t size);
struct fuse_entry_param entry_of(const Mount *mount, Node *node, const Look *look, uint64_t size);
/* The node of a number of the kernel's, and NULL for the root. */
Node *node_at(fuse_ino_t number);
/* What is known of the node; the root is a folder without a name. */
Look look_at(Mount *mount, fuse_ino_t number);

#endif
