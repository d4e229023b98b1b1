/* Calls by name: look-ups, attributes, deletions. */
#include "names.h"

#include "attributes.h"
#include "below.h"
#include "files.h"
#include "link.h"
#include "path.h"
#include "error.h"

#include <errno.h>

int path_of(Mount *mount, fuse_ino_t folder, const char *name, char path[LONGEST_WIDE_PATH + 1])
{
    Look look = look_at(mount, folder);
    return look.kind == A_FOLDER ? path_join(path, look.path, name, mount->is_wide) : ENOTDIR;
}

int open_path(Call *call, const char *path, bool is_home)
{
    int error = call_take_name(call, (Want){.may_be_reserved = !is_home}, path, BESIDE_CREATES);
    return error != 0 ? error : call_open(call, path, CREATE_EXISTING);
}

static int look_at_path(Call *call, const char *path, uint64_t *size)
{
    int error = call_take_name(call, (Want){.may_be_reserved = true}, path, BESIDE_CREATES);
    return error != 0 ? error : call_look(call, path, size);
}

/* The node is found while no deletion of the name can come between. */
static int look_up(Call *call, const char *path, Node **node, uint64_t *size)
{
    Kind kind = below_kind(call->mount, path);
    kind = kind != NOTHING ? kind : A_FILE; /* the server knows of it */
    int error = kind == A_FILE ? look_at_path(call, path, size) : 0;
    if (error == ENOENT)
        nodes_missed(&call->mount->nodes, path);
    if (error != 0)
        return error;
    *node = nodes_found(&call->mount->nodes, path, kind);
    return *node ? 0 : ENOMEM;
}

void name_look_up(fuse_req_t request, fuse_ino_t folder, const char *name)
{
    Call call = call_of(request);
    char path[LONGEST_WIDE_PATH + 1];
    Node *node = NULL;
    uint64_t size = 0;
    int error = path_of(call.mount, folder, name, path);
    error = error == EINVAL ? ENOENT : error != 0 ? error : look_up(&call, path, &node, &size);
    call_end(&call);
    if (error != 0) {
        fuse_reply_err(request, error);
        return;
    }
    Look look = nodes_look(&call.mount->nodes, node);
    struct fuse_entry_param entry = entry_of(call.mount, node, &look, size);
    if (fuse_reply_entry(request, &entry) == -ENOENT)
        nodes_forget(&call.mount->nodes, node, 1);
}

void name_forget(fuse_req_t request, fuse_ino_t number, uint64_t lookups)
{
    Mount *mount = fuse_req_userdata(request);
    if (number != FUSE_ROOT_ID)
        nodes_forget(&mount->nodes, node_at(number), lookups);
    fuse_reply_none(request);
}

void name_forget_all(fuse_req_t request, size_t count, struct fuse_forget_data *forgets)
{
    Mount *mount = fuse_req_userdata(request);
    for (size_t at = 0; at < count; at++)
        if (forgets[at].ino != FUSE_ROOT_ID)
            nodes_forget(&mount->nodes, node_at(forgets[at].ino), forgets[at].nlookup);
    fuse_reply_none(request);
}

/* Sets a new size, where there is one, and asks for the size. */
static int size_by(Call *call, uint64_t handle, const uint64_t *wanted, uint64_t *size)
{
    Reply reply;
    int error = wanted ? call_do(call, request_set_size(handle, *wanted), &reply) : 0;
    return error != 0 ? error : call_measure(call, handle, size);
}

static int size_by_file(Call *call, File *file, const uint64_t *wanted, uint64_t *size)
{
    uint64_t handle;
    int error = file_reach(call, file, SIZES, &handle);
    if (error == 0)
        error = size_by(call, handle, wanted, size);
    file_done(call, file);
    return error;
}

static int size_by_path(Call *call, const char *path, const uint64_t *wanted, uint64_t *size)
{
    int error = wanted ? open_path(call, path, false) : look_at_path(call, path, size);
    if (error == 0 && wanted)
        error = size_by(call, call->handle, wanted, size);
    call_end(call);
    return error;
}

/* By the open file that the kernel names, else by any of a deleted one, else by the name. */
static int size_of(Call *call, fuse_ino_t number, const Look *look, const struct fuse_file_info *info, const uint64_t *wanted, uint64_t *size)
{
    if (info)
        return size_by_file(call, (File *)(uintptr_t)info->fh, wanted, size);
    if (!look->is_deleted) {
        int error = size_by_path(call, look->path, wanted, size);
        return error == ENOENT && !nodes_is(&call->mount->nodes, node_at(number), look->path) ? ESTALE : error; /* it was renamed meanwhile */
    }
    File *file = file_lend(call->mount, node_at(number));
    if (!file)
        return ESTALE;
    int error = size_by_file(call, file, wanted, size);
    file_leave(file);
    return error;
}

/* Answers a call with the attributes, and sets the size before where one is wanted. */
static void answer(fuse_req_t request, fuse_ino_t number, const struct fuse_file_info *info, const uint64_t *wanted)
{
    Call call = call_of(request);
    Look look = look_at(call.mount, number);
    uint64_t size = 0;
    int error = look.kind != A_FILE ? 0 : size_of(&call, number, &look, info, wanted, &size);
    if (error != 0) {
        fuse_reply_err(request, error);
        return;
    }
    if (wanted)
        nodes_changed(&call.mount->nodes, node_at(number));
    look = look_at(call.mount, number);
    struct stat attributes = attributes_of(call.mount, &look, size);
    fuse_reply_attr(request, &attributes, call.mount->options.attr);
}

void name_get_attributes(fuse_req_t request, fuse_ino_t number, struct fuse_file_info *info)
{
    answer(request, number, info, NULL);
}

#define GIVEN_TIMES (FUSE_SET_ATTR_ATIME | FUSE_SET_ATTR_MTIME)

/* A mode that it has already is none that was given. */
static void keep_mode(Mount *mount, Node *node, const Look *look, mode_t mode)
{
    if (mode == (attributes_of(mount, look, 0).st_mode & KEPT_MODE))
        return;
    nodes_set_mode(&mount->nodes, node, mode);
    if (!look->is_deleted && look->kind == A_FILE)
        below_set_mode(mount, look->path, mode, false);
}

/* What the protocol has no word for is refused, unless it is so already. The kernel says `now` beside the time. */
static int refusal(Mount *mount, const Look *look, const struct stat *wanted, int which)
{
    struct stat is = attributes_of(mount, look, 0);
    bool is_read_given = (which & FUSE_SET_ATTR_ATIME) && !(which & FUSE_SET_ATTR_ATIME_NOW);
    bool is_changed_given = (which & FUSE_SET_ATTR_MTIME) && !(which & FUSE_SET_ATTR_MTIME_NOW);
    bool may_have_mode = (look->has_mode || mount->options.has_memmodes) && look->path[0] && (wanted->st_mode & 07777 & ~KEPT_MODE) == 0;
    bool may_have_owner = mount->options.is_kept && look->path[0];
    if ((which & FUSE_SET_ATTR_MODE) && (wanted->st_mode & 07777) != (is.st_mode & 07777) && !may_have_mode)
        return EPERM;
    if ((which & FUSE_SET_ATTR_UID) && wanted->st_uid != is.st_uid && !may_have_owner)
        return EPERM;
    if ((which & FUSE_SET_ATTR_GID) && wanted->st_gid != is.st_gid && !may_have_owner)
        return EPERM;
    if ((is_read_given || is_changed_given) && !mount->options.has_memtimes)
        return EPERM;
    if ((which & FUSE_SET_ATTR_SIZE) && look->kind == A_FOLDER)
        return EISDIR;
    return (which & FUSE_SET_ATTR_SIZE) && (uint64_t)wanted->st_size > LARGEST_FILE ? EFBIG : 0;
}

/* What lies below gets them there. A file that isn't ours has them in the mount alone. 0 or an errno. */
static int keep_times(Mount *mount, Node *node, const Look *look, const struct stat *wanted, int which)
{
    struct timespec now;
    clock_gettime(CLOCK_REALTIME, &now);
    const struct timespec *read = which & FUSE_SET_ATTR_ATIME_NOW ? &now : which & FUSE_SET_ATTR_ATIME ? &wanted->st_atim : NULL;
    const struct timespec *changed = which & FUSE_SET_ATTR_MTIME_NOW ? &now : which & FUSE_SET_ATTR_MTIME ? &wanted->st_mtim : NULL;
    const struct timespec none = {.tv_nsec = UTIME_OMIT}, times[2] = {read ? *read : none, changed ? *changed : none};
    int error = look->is_deleted ? 0 : below_set_times(mount, look->path, times);
    error = look->kind == A_FILE ? 0 : error;
    if (error == 0 && node)
        nodes_set_times(&mount->nodes, node, read, changed);
    return error;
}

void name_set_attributes(fuse_req_t request, fuse_ino_t number, struct stat *wanted, int which, struct fuse_file_info *info)
{
    Mount *mount = fuse_req_userdata(request);
    Look look = look_at(mount, number);
    uint64_t size = (uint64_t)wanted->st_size;
    int error = refusal(mount, &look, wanted, which);
    if (error == 0 && which & GIVEN_TIMES)
        error = keep_times(mount, node_at(number), &look, wanted, which);
    if (error != 0) {
        fuse_reply_err(request, error);
        return;
    }
    if ((which & FUSE_SET_ATTR_MODE) && look.path[0])
        keep_mode(mount, node_at(number), &look, wanted->st_mode & KEPT_MODE);
    if ((which & (FUSE_SET_ATTR_UID | FUSE_SET_ATTR_GID)) && mount->options.is_kept && look.path[0])
        nodes_set_owner(&mount->nodes, node_at(number), which & FUSE_SET_ATTR_UID ? wanted->st_uid : (uid_t)-1, which & FUSE_SET_ATTR_GID ? wanted->st_gid : (gid_t)-1);
    answer(request, number, info, which & FUSE_SET_ATTR_SIZE ? &size : NULL);
}

int open_inside(Call *call, const char *path)
{
    Reply reply;
    int error = call_ask(call, request_create((uint8_t)call->mount->options.volume, CREATE_EXISTING, path), &reply);
    error = error != 0 ? error : errno_of_look(reply.status);
    if (error == 0) {
        call->has_handle = true;
        call->handle = reply.information;
    }
    return error;
}

/* From the mark on the name is hidden here, if the file is open, and else not there: the close below deletes it, or the last one of the open files does. */
int delete_path(Call *call, const char *path, const char *moved_to)
{
    Reply reply;
    Nodes *nodes = &call->mount->nodes;
    int error = nodes_is_hidden(nodes, path) ? ENOENT : 0;
    if (error == 0)
        error = open_inside(call, path);
    if (error != 0)
        return error;
    error = call_do(call, request_handle(FRAME_SET_DELETE, call->handle), &reply);
    if (error != 0)
        return error;
    if (moved_to)
        nodes_rename(nodes, path, moved_to);
    else
        nodes_delete(nodes, path);
    call->has_handle = false;
    return call_do(call, request_handle(FRAME_CLOSE, call->handle), &reply);
}

static int unlink_path(Call *call, const char *path)
{
    int error = call_take_name(call, (Want){.may_be_reserved = true}, path, ALONE);
    if (error == 0)
        error = call_enter(call, path, ALONE);
    return error != 0 ? error : delete_path(call, path, NULL);
}

int unlink_file(fuse_req_t request, const char *path)
{
    Call call = call_of(request);
    int error = unlink_path(&call, path);
    call_end(&call);
    return error;
}

void name_unlink(fuse_req_t request, fuse_ino_t folder, const char *name)
{
    Mount *mount = fuse_req_userdata(request);
    char path[LONGEST_WIDE_PATH + 1];
    int error = path_of(mount, folder, name, path);
    Kind kind = error == 0 ? below_kind(mount, path) : NOTHING;
    if (kind == A_FOLDER)
        error = EISDIR;
    error = error == EINVAL ? ENOENT : error != 0 ? error : kind == A_LINK ? link_remove(mount, path) : unlink_file(request, path);
    fuse_reply_err(request, error);
}
