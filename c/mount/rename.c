/* Renames: one request of a server that knows it, so that at each moment the new name has the old file or the new one, whole. Of another by a copy, which is asked for by -o copyrename or
 * -o below: there a file that is open keeps its name, EBUSY, so that nobody deletes and copies instead. */
#include "rename.h"

#include "below.h"
#include "copy.h"
#include "link.h"
#include "names.h"
#include "path.h"
#include "tree.h"

#include <errno.h>
#include <string.h>
#include <unistd.h>

/* So often it is looked whether the last close came meanwhile, at first after so many microseconds, and each time after twice as many. */
#define LOOKS 20
#define SHORTEST_PAUSE 50
#define LONGEST_PAUSE 20000
/* So often a server is asked that has the file in use, each time after the longest pause. */
#define TRIALS 6

bool stays_open(Nodes *nodes, const char *path, bool (*is_open)(Nodes *nodes, const char *path))
{
    bool is_so = is_open(nodes, path);
    for (unsigned look = 0, pause = SHORTEST_PAUSE; is_so && look < LOOKS; look++, pause = pause * 2 < LONGEST_PAUSE ? pause * 2 : LONGEST_PAUSE) {
        usleep(pause);
        is_so = is_open(nodes, path);
    }
    return is_so;
}

/* A server may want the file for itself: it is asked again for a while. */
static int ask_patiently(Call *call, Request request)
{
    Reply reply = {0};
    int error = call_do(call, request, &reply);
    for (unsigned trial = 1; reply.status == KZS_BUSY && trial < TRIALS; trial++) {
        usleep(LONGEST_PAUSE);
        error = call_do(call, request, &reply);
    }
    bool is_in_the_way = reply.status == KZS_ACCESS_DENIED && nodes_is_open(&call->mount->nodes, (const char *)request.bytes);
    return is_in_the_way ? EBUSY : error;
}

/* Open files go along, and those of what is replaced keep what they have. */
static int move_file(Call *call, const char *path, const char *to, bool is_new)
{
    int error = open_inside(call, path);
    if (error == 0)
        error = ask_patiently(call, request_rename(call->handle, !is_new, to));
    if (error == 0)
        nodes_rename(&call->mount->nodes, path, to);
    return error;
}

static int copy_and_delete(Call *call, const char *path, const char *to, bool is_new)
{
    Nodes *nodes = &call->mount->nodes;
    int error = nodes_is_open(nodes, path) || nodes_is_open(nodes, to) ? EBUSY : copy_file(call, path, to, is_new);
    return error != 0 ? error : delete_path(call, path, to);
}

/* Alone at both gates, which are entered in the order of their numbers. */
static int rename_path(Call *call, const char *path, const char *to, bool is_new)
{
    Mount *mount = call->mount;
    Call other = call_on(mount, NULL);
    const char *first = gate_of(path) < gate_of(to) ? path : to, *second = first == path ? to : path;
    int error = call_take(call, (Want){0});
    if (error == 0)
        error = call_enter(call, first, ALONE);
    if (error == 0 && gate_of(first) != gate_of(second))
        error = call_enter(&other, second, ALONE);
    if (error == 0 && nodes_is_hidden(&mount->nodes, to))
        error = EBUSY;
    if (error == 0)
        error = (mount->knows_rename ? move_file : copy_and_delete)(call, path, to, is_new);
    call_leave(&other);
    return error;
}

int rename_file(Mount *mount, const char *path, const char *to, bool is_new)
{
    Call call = call_on(mount, NULL);
    int error = rename_path(&call, path, to, is_new);
    call_end(&call);
    return error;
}

/* Until nobody is there whom the rename would wait for: so long it can be interrupted. */
static int wait_before(fuse_req_t request, const char *path, const char *to)
{
    Call call = call_of(request);
    int error = call_wait(&call, path, NAMES, ALONE);
    return error != 0 ? error : call_wait(&call, to, NAMES, ALONE);
}

/* One that is to be copied is closed before, and so is what is in the way. */
static bool stays_in_use(Mount *mount, const char *path, const char *to)
{
    return !mount->knows_rename && (stays_open(&mount->nodes, path, nodes_is_open) || stays_open(&mount->nodes, to, nodes_is_open));
}

/* What is in the way of a server may be on its way to its last close. */
static int rename_again(Mount *mount, const char *path, const char *to, bool is_new)
{
    int error = rename_file(mount, path, to, is_new);
    return error == EBUSY && !stays_open(&mount->nodes, to, nodes_is_open) ? rename_file(mount, path, to, is_new) : error;
}

/* Onto a link: what a server refuses there is done in two steps. */
static int rename_onto_link(Mount *mount, const char *path, const char *to)
{
    int error = mount->knows_rename ? rename_file(mount, path, to, false) : EIO;
    return error == EIO || error == EACCES || error == EEXIST ? link_replace(mount, path, to) : error;
}

/* Once nobody waits for one of both. */
static int rename_alone(fuse_req_t request, Mount *mount, const char *path, const char *to, bool is_new)
{
    Kind kind = below_kind(mount, to);
    if (kind == A_FOLDER)
        return EISDIR;
    if (kind == A_LINK && is_new)
        return EEXIST;
    if (stays_in_use(mount, path, to) || nodes_wait_hidden(&mount->nodes, to, HIDDEN_MILLISECONDS))
        return EBUSY;
    int error = wait_before(request, path, to);
    if (error != 0 || strcmp(path, to) == 0 || below_is_same(mount, path, to))
        return error;
    return kind == A_LINK ? rename_onto_link(mount, path, to) : rename_again(mount, path, to, is_new);
}

static int rename_any(fuse_req_t request, Mount *mount, const char *path, const char *to, bool is_new)
{
    Kind kind = below_kind(mount, path);
    if (kind == A_FOLDER)
        return tree_rename(mount, path, to, is_new);
    if (kind != A_LINK)
        return rename_alone(request, mount, path, to, is_new);
    if (below_is_folder(mount, to))
        return EISDIR;
    return strcmp(path, to) == 0 ? 0 : link_rename(request, path, to, is_new);
}

void name_rename(fuse_req_t request, fuse_ino_t folder, const char *name, fuse_ino_t to_folder, const char *to, unsigned flags)
{
    Mount *mount = fuse_req_userdata(request);
    char path[LONGEST_WIDE_PATH + 1], to_path[LONGEST_WIDE_PATH + 1];
    bool is_new = flags == 1; /* RENAME_NOREPLACE */
    int error = path_of(mount, folder, name, path);
    if (error == 0)
        error = path_of(mount, to_folder, to, to_path);
    if (error == 0 && !mount->knows_rename && !mount->options.has_copyrename && mount->below == -1)
        error = EXDEV;
    if (error == 0 && flags > 1)
        error = EINVAL;
    if (error == 0)
        error = rename_any(request, mount, path, to_path, is_new);
    fuse_reply_err(request, error);
}
