/* What the protocol has no word for. */
#ifndef KZ_MOUNT_REFUSED_H
#define KZ_MOUNT_REFUSED_H

#include "mount.h"

void refuse_make_node(fuse_req_t request, fuse_ino_t folder, const char *name, mode_t mode, dev_t device);
void refuse_link(fuse_req_t request, fuse_ino_t number, fuse_ino_t folder, const char *name);

#endif
