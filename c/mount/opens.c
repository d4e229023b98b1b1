/* Files are opened, and made. */
#include "attributes.h"
#include "below.h"
#include "data.h"
#include "files.h"
#include "names.h"

#include <errno.h>
#include <fcntl.h>

/* The call's handle becomes the kernel's open file. */
static int keep(Call *call, Node *node, struct fuse_file_info *info)
{
    File *file = file_open(call, node);
    if (!file)
        return ENOMEM;
    info->fh = (uint64_t)(uintptr_t)file;
    info->direct_io = !call->mount->options.is_cached;
    info->keep_cache = 0;
    return 0;
}

static int cut(Call *call)
{
    Reply reply;
    return call_do(call, request_set_size(call->handle, 0), &reply);
}

/* The name may have got another file since the kernel looked it up: then it is to look again, as where it isn't there any more. */
static int open_node(Call *call, Node *node, struct fuse_file_info *info)
{
    Nodes *nodes = &call->mount->nodes;
    Look look = nodes_look(nodes, node);
    int error = look.is_deleted ? ESTALE : look.kind != A_FILE ? EISDIR : open_path(call, look.path, true);
    if (error == ENOENT || (error == 0 && !nodes_is(nodes, node, look.path)))
        error = ESTALE;
    if (error == 0 && (info->flags & O_TRUNC)) {
        error = cut(call);
        nodes_changed(nodes, node);
    }
    return error != 0 ? error : keep(call, node, info);
}

void data_open(fuse_req_t request, fuse_ino_t number, struct fuse_file_info *info)
{
    Call call = call_of(request);
    int error = open_node(&call, node_at(number), info);
    call_end(&call);
    if (error != 0)
        fuse_reply_err(request, error);
    else if (fuse_reply_open(request, info) == -ENOENT)
        file_leave((File *)(uintptr_t)info->fh);
}

/* Makes the file, or opens it where it is there already, and measures it. While a deleted file of that name is still open (hidden), the server refuses the name: EBUSY. */
static int create(Call *call, const char *path, struct fuse_file_info *info, uint64_t *size)
{
    if (nodes_wait_hidden(&call->mount->nodes, path, HIDDEN_MILLISECONDS))
        return EBUSY;
    int error = call_take_name(call, (Want){0}, path, BESIDE_CREATES);
    if (error == 0)
        error = call_open(call, path, info->flags & O_EXCL ? CREATE_NEW : CREATE_ALWAYS);
    if (error == ENOENT && nodes_is_hidden(&call->mount->nodes, path))
        error = EBUSY;
    *size = 0; /* of a new one */
    if (error == 0 && !(info->flags & O_EXCL))
        error = call_measure(call, call->handle, size);
    if (error == 0 && (info->flags & O_TRUNC) && *size > 0) {
        error = cut(call);
        *size = 0;
    }
    return error;
}

/* The node of what was made, with the kernel's look-up and an open file. */
static int find(Call *call, const char *path, struct fuse_file_info *info, Node **node)
{
    Nodes *nodes = &call->mount->nodes;
    *node = nodes_found(nodes, path, A_FILE);
    int error = *node ? keep(call, *node, info) : ENOMEM;
    if (error != 0 && *node)
        nodes_forget(nodes, *node, 1);
    return error;
}

/* The mode that is kept of what was made. A given mode= bounds it, and lets run what may be read. */
static mode_t mode_made(const Options *options, mode_t mode)
{
    mode_t kept = options->is_mode_given ? mode & options->mode : mode & KEPT_MODE;
    return kept | (options->mode & 0111 & (kept & 0444) >> 2);
}

/* What is made is its maker's, where owners are kept. */
static void own(Mount *mount, fuse_req_t request, Node *node)
{
    const struct fuse_ctx *maker = fuse_req_ctx(request);
    if (mount->options.is_kept)
        nodes_set_owner(&mount->nodes, node, maker->uid, maker->gid);
}

void data_create(fuse_req_t request, fuse_ino_t folder, const char *name, mode_t mode, struct fuse_file_info *info)
{
    Call call = call_of(request);
    char path[LONGEST_WIDE_PATH + 1];
    Node *node = NULL;
    uint64_t size = 0;
    int error = path_of(call.mount, folder, name, path);
    if (error == 0 && below_is_folder(call.mount, path))
        error = EISDIR;
    if (error == 0)
        error = create(&call, path, info, &size);
    if (error == 0)
        error = find(&call, path, info, &node);
    call_end(&call);
    if (error != 0) {
        fuse_reply_err(request, error);
        return;
    }
    mode = mode_made(&call.mount->options, mode);
    if (nodes_made(&call.mount->nodes, node, mode)) {
        below_set_mode(call.mount, path, mode, true);
        own(call.mount, request, node);
    }
    if (size == 0)
        nodes_changed(&call.mount->nodes, node);
    Look look = nodes_look(&call.mount->nodes, node);
    struct fuse_entry_param entry = entry_of(call.mount, node, &look, size);
    if (fuse_reply_create(request, &entry, info) == -ENOENT) {
        file_leave((File *)(uintptr_t)info->fh);
        nodes_forget(&call.mount->nodes, node, 1);
    }
}
