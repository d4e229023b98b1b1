/* The protocol has a size alone. Owners, times and modes are those that the mount saw or was given, or its own. */
#include "attributes.h"

#include "below.h"

#include <unistd.h>

Node *node_at(fuse_ino_t number)
{
    return number == FUSE_ROOT_ID ? NULL : (Node *)(uintptr_t)number;
}

Look look_at(Mount *mount, fuse_ino_t number)
{
    if (number != FUSE_ROOT_ID)
        return nodes_look(&mount->nodes, node_at(number));
    return (Look){.kind = A_FOLDER, .changed = mount->nodes.begun, .read = mount->nodes.begun, .renewed = mount->nodes.begun};
}

/* A folder may be entered by whoever may read it. */
static mode_t folder_mode(mode_t mode)
{
    return S_IFDIR | mode | (mode & 0444) >> 2;
}

static mode_t mode_of(const Mount *mount, const Look *look)
{
    if (look->kind == A_LINK)
        return S_IFLNK | 0777;
    if (look->kind == A_FOLDER)
        return look->has_mode ? S_IFDIR | look->mode : folder_mode(mount->options.mode);
    return S_IFREG | (look->has_mode ? look->mode : mount->options.mode);
}

struct stat attributes_of(const Mount *mount, const Look *look, uint64_t size)
{
    struct stat attributes = {
        .st_ino = look->path[0] ? look->number : FUSE_ROOT_ID,
        .st_mode = mode_of(mount, look),
        .st_nlink = look->is_deleted ? 0 : look->kind == A_FOLDER ? 2 : 1,
        .st_uid = look->has_owner ? look->user : getuid(),
        .st_gid = look->has_owner ? look->group : getgid(),
        .st_size = (off_t)size,
        .st_blocks = (blkcnt_t)((size + 511) / 512),
        .st_blksize = 4096,
        .st_atim = look->read,
        .st_mtim = look->changed,
        .st_ctim = look->renewed,
    };
    if (!look->is_deleted)
        below_tell(mount, look, &attributes);
    return attributes;
}

struct fuse_entry_param entry_of(const Mount *mount, Node *node, const Look *look, uint64_t size)
{
    return (struct fuse_entry_param){
        .ino = (fuse_ino_t)(uintptr_t)node,
        .attr = attributes_of(mount, look, size),
        .attr_timeout = mount->options.attr,
        .entry_timeout = mount->options.attr,
    };
}
