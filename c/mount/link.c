/* Symbolic links of the server's folder. */
#include "link.h"

#include "attributes.h"
#include "below.h"
#include "names.h"
#include "rename.h"

#include <errno.h>
#include <limits.h>
#include <unistd.h>

void link_make(fuse_req_t request, const char *target, fuse_ino_t folder, const char *name)
{
    Mount *mount = fuse_req_userdata(request);
    char path[LONGEST_WIDE_PATH + 1];
    int error = fuse_req_ctx(request)->uid == getuid() ? path_of(mount, folder, name, path) : EPERM;
    if (error == 0)
        error = below_make_link(mount, path, target);
    Node *node = error == 0 ? nodes_found(&mount->nodes, path, A_LINK) : NULL;
    if (!node) {
        fuse_reply_err(request, error != 0 ? error : ENOMEM);
        return;
    }
    Look look = nodes_look(&mount->nodes, node);
    struct fuse_entry_param entry = entry_of(mount, node, &look, 0);
    if (fuse_reply_entry(request, &entry) == -ENOENT)
        nodes_forget(&mount->nodes, node, 1);
}

static int read_target(const Mount *mount, const char *path, char target[PATH_MAX])
{
    ssize_t length = below_read_link(mount, path, target, PATH_MAX - 1);
    target[length == -1 ? 0 : length] = '\0';
    return length == -1 ? errno : 0;
}

void link_read(fuse_req_t request, fuse_ino_t number)
{
    Mount *mount = fuse_req_userdata(request);
    char target[PATH_MAX];
    Look look = look_at(mount, number);
    int error = look.is_deleted ? ESTALE : read_target(mount, look.path, target);
    if (error != 0)
        fuse_reply_err(request, error);
    else
        fuse_reply_readlink(request, target);
}

int link_remove(Mount *mount, const char *path)
{
    int error = below_remove_link(mount, path);
    if (error == 0)
        nodes_delete(&mount->nodes, path);
    return error;
}

int link_move(Mount *mount, const char *path, const char *to)
{
    int error = below_move_link(mount, path, to);
    if (error == 0)
        nodes_rename(&mount->nodes, path, to);
    return error;
}

int link_rename(fuse_req_t request, const char *path, const char *to, bool is_new)
{
    Mount *mount = fuse_req_userdata(request);
    Kind kind = below_kind(mount, to);
    if (is_new && kind != NOTHING)
        return EEXIST;
    int error = kind == A_LINK ? link_remove(mount, to) : kind == A_FILE ? unlink_file(request, to) : 0;
    return error != 0 ? error : link_move(mount, path, to);
}

int link_replace(Mount *mount, const char *path, const char *to)
{
    char target[PATH_MAX];
    int error = read_target(mount, to, target);
    if (error == 0)
        error = link_remove(mount, to);
    if (error != 0)
        return error;
    error = rename_file(mount, path, to, true);
    if (error != 0)
        below_make_link(mount, to, target);
    return error;
}
