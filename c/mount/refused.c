/* What the protocol has no word for. */
#include "refused.h"

#include <errno.h>

void refuse_make_node(fuse_req_t request, fuse_ino_t folder, const char *name, mode_t mode, dev_t device)
{
    (void)folder, (void)name, (void)mode, (void)device;
    fuse_reply_err(request, EPERM);
}

void refuse_link(fuse_req_t request, fuse_ino_t number, fuse_ino_t folder, const char *name)
{
    (void)number, (void)folder, (void)name;
    fuse_reply_err(request, EPERM);
}
