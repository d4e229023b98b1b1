/* fltmount: dials the server, mounts, and answers the kernel until it is unmounted. Exit status: 0, or 1 where the mount broke, 2 for wrong words, 3 where the server or the mount point isn't to be had. */
#include "below.h"
#include "data.h"
#include "files.h"
#include "folder.h"
#include "link.h"
#include "names.h"
#include "options.h"
#include "refused.h"
#include "rename.h"
#include "tree.h"

#include <errno.h>
#include <stdio.h>
#include <stdlib.h>
#include <string.h>
#include <sys/stat.h>

/* Each program that waits for a held read has a thread; beside those that wait some are left. */
#define THREADS 96
/* Connections that are no file's home. */
#define RESERVED 2

enum { ENDED, BROKEN, WRONG_WORDS, OUT_OF_REACH };

/* A write has to meet the filters that are attached when it is made: so nothing is written late, and no page is read ahead unless -o cached says so. */
static void begin(void *data, struct fuse_conn_info *kernel)
{
    (void)data;
    kernel->want |= kernel->capable & FUSE_CAP_ATOMIC_O_TRUNC;
    kernel->want &= ~(unsigned)(FUSE_CAP_WRITEBACK_CACHE | FUSE_CAP_AUTO_INVAL_DATA | FUSE_CAP_READDIRPLUS | FUSE_CAP_SPLICE_READ | FUSE_CAP_SPLICE_WRITE | FUSE_CAP_SPLICE_MOVE);
    kernel->max_read = LARGEST_REQUEST;
    kernel->max_write = LARGEST_REQUEST;
}

static const struct fuse_lowlevel_ops operations = {
    .init = begin,
    .lookup = name_look_up,
    .forget = name_forget,
    .forget_multi = name_forget_all,
    .getattr = name_get_attributes,
    .setattr = name_set_attributes,
    .unlink = name_unlink,
    .rename = name_rename,
    .open = data_open,
    .create = data_create,
    .read = data_read,
    .write = data_write,
    .fsync = data_sync,
    .release = data_release,
    .opendir = folder_open,
    .readdir = folder_read,
    .releasedir = folder_release,
    .fsyncdir = below_sync,
    .mknod = refuse_make_node,
    .mkdir = tree_make_folder,
    .rmdir = tree_remove_folder,
    .symlink = link_make,
    .readlink = link_read,
    .link = refuse_link,
    .statfs = below_tell_size,
};

static int answer_kernel(struct fuse_session *session, bool has_clones)
{
    struct fuse_loop_config *loop = fuse_loop_cfg_create();
    if (!loop)
        return BROKEN;
    fuse_loop_cfg_set_max_threads(loop, THREADS);
    fuse_loop_cfg_set_idle_threads(loop, THREADS);
    fuse_loop_cfg_set_clone_fd(loop, has_clones);
    int status = fuse_session_loop_mt(session, loop) < 0 ? BROKEN : ENDED;
    fuse_loop_cfg_destroy(loop);
    return status;
}

static int serve(Mount *mount, const struct fuse_cmdline_opts *line)
{
    if (fuse_set_signal_handlers(mount->session) != 0)
        return BROKEN;
    int status = OUT_OF_REACH;
    if (fuse_session_mount(mount->session, line->mountpoint) == 0) {
        status = fuse_daemonize(line->foreground) == 0 ? answer_kernel(mount->session, line->clone_fd) : BROKEN;
        fuse_session_unmount(mount->session);
    }
    fuse_remove_signal_handlers(mount->session);
    return status;
}

static int cannot_reach(const char *what, int error)
{
    fprintf(stderr, "fltmount: %s: %s\n", what, strerror(error));
    return OUT_OF_REACH;
}

/* What libfuse is told beside the words. */
static bool add_words(struct fuse_args *words, const Options *options)
{
    char most[64];
    snprintf(most, sizeof most, "-omax_read=%u,subtype=kazdrin", LARGEST_REQUEST);
    if (fuse_opt_add_arg(words, options->is_for_others ? "-oallow_other,default_permissions" : "-odefault_permissions") != 0)
        return false;
    return fuse_opt_add_arg(words, most) == 0;
}

static int serve_with_pool(Mount *mount, struct fuse_args *words, const struct fuse_cmdline_opts *line)
{
    int error = pool_open(&mount->pool, mount->options.socket, mount->options.connections, RESERVED);
    if (error != 0)
        return cannot_reach(mount->options.socket, error);
    nodes_open(&mount->nodes);
    gates_open(&mount->gates);
    call_learn(mount);
    mount->session = fuse_session_new(words, &operations, sizeof operations, mount);
    int status = mount->session ? serve(mount, line) : WRONG_WORDS;
    pool_close(&mount->pool);
    files_free(&mount->nodes);
    nodes_close(&mount->nodes);
    gates_close(&mount->gates);
    if (mount->session)
        fuse_session_destroy(mount->session);
    return status;
}

/* The mount point among libfuse's words, or NULL. */
static const char *mount_point_of(const struct fuse_args *words)
{
    for (int at = 1; at < words->argc; at++) {
        if (strcmp(words->argv[at], "-o") == 0)
            at++;
        else if (words->argv[at][0] != '-')
            return words->argv[at];
    }
    return NULL;
}

/* 0, or the errno of what is no folder to mount on: libfuse takes that for wrong words. */
static int look_at_mount_point(const char *path)
{
    struct stat is;
    if (path && stat(path, &is) != 0)
        return errno;
    return !path || S_ISDIR(is.st_mode) ? 0 : ENOTDIR;
}

static bool is_help(int count, char **texts)
{
    return count == 2 && (strcmp(texts[1], "-h") == 0 || strcmp(texts[1], "--help") == 0);
}

static int mount_with(Mount *mount, struct fuse_args *words)
{
    struct fuse_cmdline_opts line = {0};
    if (!options_read(words, &mount->options))
        return WRONG_WORDS;
    int status = WRONG_WORDS, error = look_at_mount_point(mount_point_of(words));
    if (error != 0)
        return cannot_reach(mount_point_of(words), error);
    if (fuse_parse_cmdline(words, &line) != 0)
        return WRONG_WORDS;
    if (!line.mountpoint)
        options_usage(stderr);
    else if (!below_open(mount))
        status = cannot_reach(mount->options.below, errno);
    else if (add_words(words, &mount->options))
        status = serve_with_pool(mount, words, &line);
    below_close(mount);
    free(line.mountpoint);
    return status;
}

int main(int count, char **texts)
{
    if (is_help(count, texts)) {
        options_usage(stdout);
        return ENDED;
    }
    static Mount mount = {.below = -1};
    struct fuse_args words = FUSE_ARGS_INIT(count, texts);
    int status = mount_with(&mount, &words);
    fuse_opt_free_args(&words);
    free(mount.options.socket);
    free(mount.options.folders);
    free(mount.options.below);
    return status;
}
