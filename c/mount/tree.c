/* Folders are made, removed and renamed in the server's folder itself. */
#include "tree.h"

#include "attributes.h"
#include "below.h"
#include "link.h"
#include "names.h"
#include "path.h"
#include "rename.h"

#include <errno.h>
#include <stdio.h>
#include <stdlib.h>
#include <string.h>

/* Folders in folders: a path has at most so many parts. */
#define DEEPEST (LONGEST_WIDE_PATH / 2 + 1)

/* The node of a folder that was made: its mode is kept, and its owner where owners are. */
static Node *node_made(Mount *mount, fuse_req_t request, const char *path, mode_t mode)
{
    Node *node = nodes_found(&mount->nodes, path, A_FOLDER);
    const struct fuse_ctx *maker = fuse_req_ctx(request);
    if (!node)
        return NULL;
    nodes_set_mode(&mount->nodes, node, mode & KEPT_MODE);
    nodes_changed(&mount->nodes, node);
    if (mount->options.is_kept)
        nodes_set_owner(&mount->nodes, node, maker->uid, maker->gid);
    return node;
}

void tree_make_folder(fuse_req_t request, fuse_ino_t folder, const char *name, mode_t mode)
{
    Mount *mount = fuse_req_userdata(request);
    char path[LONGEST_WIDE_PATH + 1];
    int error = path_of(mount, folder, name, path);
    if (error == 0)
        error = below_make_folder(mount, path, mode);
    Node *node = error == 0 ? node_made(mount, request, path, mode) : NULL;
    if (!node) {
        fuse_reply_err(request, error != 0 ? error : ENOMEM);
        return;
    }
    Look look = nodes_look(&mount->nodes, node);
    struct fuse_entry_param entry = entry_of(mount, node, &look, 0);
    if (fuse_reply_entry(request, &entry) == -ENOENT)
        nodes_forget(&mount->nodes, node, 1);
}

/* So often it is looked whether files in it are closed, a fifth of a second each time. */
#define PATIENCE 5

/* The last close of a deleted file in it may be on its way: the kernel makes it after reads that go on. */
static int remove_folder(Mount *mount, const char *path)
{
    int error = below_remove_folder(mount, path);
    for (unsigned look = 0; error == ENOTEMPTY && look < PATIENCE; look++)
        if (!stays_open(&mount->nodes, path, nodes_is_open_in))
            return below_remove_folder(mount, path);
    return error;
}

void tree_remove_folder(fuse_req_t request, fuse_ino_t folder, const char *name)
{
    Mount *mount = fuse_req_userdata(request);
    char path[LONGEST_WIDE_PATH + 1];
    int error = path_of(mount, folder, name, path);
    if (error == 0)
        error = remove_folder(mount, path);
    if (error == 0)
        nodes_delete(&mount->nodes, path);
    fuse_reply_err(request, error);
}

/* ---- renames ---- */

/* The names in a folder, each ended by a zero, an empty one after the last: NULL with errno. `.` and `..` aren't among them. */
static char *names_in(const Mount *mount, const char *path)
{
    DIR *list = below_list(mount, path);
    char *names = NULL;
    size_t length = 0;
    FILE *text = list ? open_memstream(&names, &length) : NULL;
    for (const struct dirent *entry = text ? readdir(list) : NULL; entry; entry = readdir(list))
        if (strcmp(entry->d_name, ".") != 0 && strcmp(entry->d_name, "..") != 0)
            fprintf(text, "%s%c", entry->d_name, '\0');
    if (text)
        fputc('\0', text);
    bool is_whole = text && fclose(text) == 0;
    if (list)
        closedir(list);
    if (is_whole)
        return names;
    free(names);
    return NULL;
}

typedef int Visit(Mount *mount, const char *path, const char *to, unsigned depth);

/* Visits all that lies in a folder, with the path that it is to have: 0 or the first errno. */
static int each(Mount *mount, const char *path, const char *to, unsigned depth, Visit *visit)
{
    char *names = depth < DEEPEST ? names_in(mount, path) : NULL;
    int error = names ? 0 : EXDEV;
    for (const char *name = names; name && *name && error == 0; name += strlen(name) + 1) {
        char from[LONGEST_WIDE_PATH + 1], there[LONGEST_WIDE_PATH + 1];
        error = path_join(from, path, name, mount->is_wide);
        if (error == 0)
            error = path_join(there, to, name, mount->is_wide);
        if (error == 0)
            error = visit(mount, from, there, depth + 1);
    }
    free(names);
    return error;
}

/* Whether all in it can be moved. */
static int can_move(Mount *mount, const char *path, const char *to, unsigned depth)
{
    Kind kind = below_kind(mount, path);
    return kind == NOTHING ? EXDEV : kind == A_FOLDER ? each(mount, path, to, depth, can_move) : 0;
}

static int move(Mount *mount, const char *path, const char *to, unsigned depth);

/* The new folder has the node, and so the mode, of the old one. */
static int move_folder(Mount *mount, const char *path, const char *to, unsigned depth)
{
    int error = below_make_folder(mount, to, 0777);
    if (error == 0)
        error = each(mount, path, to, depth, move);
    if (error == 0)
        error = below_remove_folder(mount, path);
    if (error == 0)
        nodes_rename(&mount->nodes, path, to);
    return error;
}

static int move(Mount *mount, const char *path, const char *to, unsigned depth)
{
    Kind kind = below_kind(mount, path);
    return kind == A_FOLDER ? move_folder(mount, path, to, depth) : kind == A_LINK ? link_move(mount, path, to) : rename_file(mount, path, to, true);
}

static bool lies_in(const char *path, const char *folder)
{
    size_t length = strlen(folder);
    return strncmp(path, folder, length) == 0 && path[length] == '/';
}

/* An empty folder of the new name is replaced. */
static int make_way(Mount *mount, const char *to, bool is_new)
{
    Kind kind = below_kind(mount, to);
    if (kind == NOTHING)
        return 0;
    if (is_new)
        return EEXIST;
    return kind != A_FOLDER ? ENOTDIR : below_remove_folder(mount, to);
}

int tree_rename(Mount *mount, const char *path, const char *to, bool is_new)
{
    if (lies_in(to, path))
        return EINVAL;
    if (path_is_in(mount->options.folders, path) || path_is_in(mount->options.folders, to))
        return EXDEV;
    if (stays_open(&mount->nodes, path, mount->knows_rename ? nodes_is_hidden_in : nodes_is_open_in))
        return EBUSY;
    int error = each(mount, path, to, 0, can_move);
    if (error == 0)
        error = make_way(mount, to, is_new);
    return error != 0 ? error : move_folder(mount, path, to, 0);
}
