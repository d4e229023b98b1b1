/* The server's folder itself: folders, room, names and modes. */
#define _GNU_SOURCE
#include "below.h"

#include "attributes.h"
#include "path.h"

#include <errno.h>
#include <fcntl.h>
#include <linux/openat2.h>
#include <stdio.h>
#include <string.h>
#include <sys/statvfs.h>
#include <sys/syscall.h>
#include <unistd.h>

bool below_open(Mount *mount)
{
    const char *folder = mount->options.below;
    mount->below = folder ? open(folder, O_RDONLY | O_DIRECTORY | O_CLOEXEC) : -1;
    return !folder || mount->below != -1;
}

void below_close(Mount *mount)
{
    if (mount->below != -1)
        close(mount->below);
    mount->below = -1;
}

bool below_is_full(const Mount *mount, uint64_t bytes)
{
    struct statvfs room;
    if (mount->below == -1 || fstatvfs(mount->below, &room) != 0)
        return false;
    uint64_t blocks = bytes / room.f_frsize + 1;
    return room.f_bavail < blocks || (room.f_files > 0 && room.f_favail == 0);
}

void below_tell_size(fuse_req_t request, fuse_ino_t number)
{
    Mount *mount = fuse_req_userdata(request);
    (void)number;
    struct statvfs room = {
        .f_bsize = 4096,
        .f_frsize = 4096,
        .f_blocks = LARGEST_FILE / 4096,
        .f_bfree = LARGEST_FILE / 4096,
        .f_bavail = LARGEST_FILE / 4096,
    };
    if (mount->below != -1 && fstatvfs(mount->below, &room) != 0) {
        fuse_reply_err(request, errno);
        return;
    }
    room.f_namemax = LONGEST_NAME;
    fuse_reply_statfs(request, &room);
}

/* Opens what lies below by its path, "" for the folder itself: -1 with errno. */
static int open_at(int below, const char *path, int flags)
{
    struct open_how how = {.flags = (uint64_t)(flags | O_NOFOLLOW | O_CLOEXEC), .resolve = RESOLVE_BENEATH | RESOLVE_NO_SYMLINKS};
    return (int)syscall(SYS_openat2, below, path[0] ? path : ".", &how, sizeof how);
}

static bool tell_of(const Mount *mount, const char *path, struct stat *is)
{
    int file = mount->below == -1 ? -1 : open_at(mount->below, path, O_PATH);
    if (file == -1)
        return false;
    bool is_known = fstat(file, is) == 0;
    close(file);
    return is_known;
}

Kind below_kind(const Mount *mount, const char *path)
{
    struct stat is;
    if (path_is_in(mount->options.folders, path))
        return A_FOLDER;
    if (!tell_of(mount, path, &is))
        return NOTHING;
    return S_ISDIR(is.st_mode) ? A_FOLDER : S_ISREG(is.st_mode) ? A_FILE : S_ISLNK(is.st_mode) ? A_LINK : NOTHING;
}

static bool is_later(const struct timespec *one, const struct timespec *other)
{
    return one->tv_sec != other->tv_sec ? one->tv_sec > other->tv_sec : one->tv_nsec > other->tv_nsec;
}

/* A file's times, as long as the mount has none of its own. */
static void tell_times(const Look *look, const struct stat *is, struct stat *attributes)
{
    if (look->has_times)
        return;
    attributes->st_atim = is->st_atim;
    attributes->st_mtim = is->st_mtim;
    if (!look->has_mode || is_later(&is->st_ctim, &attributes->st_ctim))
        attributes->st_ctim = is->st_ctim;
}

void below_tell(const Mount *mount, const Look *look, struct stat *attributes)
{
    struct stat is;
    if (!tell_of(mount, look->path, &is) || (is.st_mode & S_IFMT) != (attributes->st_mode & S_IFMT))
        return;
    attributes->st_blocks = is.st_blocks;
    if (S_ISREG(is.st_mode)) {
        tell_times(look, &is, attributes);
        return;
    }
    attributes->st_mtim = is.st_mtim;
    attributes->st_ctim = is_later(&is.st_ctim, &attributes->st_ctim) ? is.st_ctim : attributes->st_ctim;
    attributes->st_nlink = is.st_nlink;
    attributes->st_size = is.st_size;
}

bool below_is_same(const Mount *mount, const char *path, const char *other)
{
    struct stat one, two;
    return tell_of(mount, path, &one) && tell_of(mount, other, &two) && one.st_ino == two.st_ino && one.st_dev == two.st_dev;
}

bool below_is_folder(const Mount *mount, const char *path)
{
    return below_kind(mount, path) == A_FOLDER;
}

/* The folder that a path lies in, to be written out, and the last part of the path: -1 with errno. */
static int open_above(const Mount *mount, const char *path, const char **name)
{
    char above[LONGEST_WIDE_PATH + 1] = "";
    const char *slash = strrchr(path, '/');
    *name = slash ? slash + 1 : path;
    if (slash)
        snprintf(above, sizeof above, "%.*s", (int)(slash - path), path);
    if (mount->below == -1)
        errno = EPERM;
    return mount->below == -1 ? -1 : open_at(mount->below, above, O_RDONLY | O_DIRECTORY);
}

/* Closes it, once its names are written out if all went right. */
static int written(int above, bool is_right)
{
    int error = is_right && (fsync(above) == 0 || errno == EINVAL) ? 0 : errno;
    if (above != -1)
        close(above);
    return error;
}

int below_make_folder(const Mount *mount, const char *path, mode_t mode)
{
    const char *name;
    int above = open_above(mount, path, &name);
    return written(above, above != -1 && mkdirat(above, name, S_IRWXU | (mode & 0777)) == 0);
}

int below_remove_folder(const Mount *mount, const char *path)
{
    const char *name;
    int above = open_above(mount, path, &name);
    return written(above, above != -1 && unlinkat(above, name, AT_REMOVEDIR) == 0);
}

int below_make_link(const Mount *mount, const char *path, const char *target)
{
    const char *name;
    int above = open_above(mount, path, &name);
    return written(above, above != -1 && symlinkat(target, above, name) == 0);
}

/* What isn't one any more is left to the filters. */
int below_remove_link(const Mount *mount, const char *path)
{
    const char *name;
    if (below_kind(mount, path) != A_LINK)
        return ENOENT;
    int above = open_above(mount, path, &name);
    return written(above, above != -1 && unlinkat(above, name, 0) == 0);
}

int below_move_link(const Mount *mount, const char *path, const char *to)
{
    const char *name, *to_name;
    int above = open_above(mount, path, &name), to_above = open_above(mount, to, &to_name);
    bool is_right = above != -1 && to_above != -1 && renameat2(above, name, to_above, to_name, RENAME_NOREPLACE) == 0;
    int error = written(to_above, is_right);
    int other = written(above, is_right);
    return error != 0 ? error : other;
}

int below_set_times(const Mount *mount, const char *path, const struct timespec times[2])
{
    int file = mount->below == -1 ? -1 : open_at(mount->below, path, O_PATH);
    if (file == -1)
        return mount->below == -1 ? 0 : errno;
    int error = utimensat(file, "", times, AT_EMPTY_PATH) == 0 ? 0 : errno;
    close(file);
    return error;
}

void below_take_times(const Mount *mount, const char *path, struct timespec times[2])
{
    struct stat is;
    times[0] = times[1] = (struct timespec){.tv_nsec = UTIME_OMIT};
    if (!tell_of(mount, path, &is))
        return;
    times[0] = is.st_atim;
    times[1] = is.st_mtim;
}

ssize_t below_read_link(const Mount *mount, const char *path, char *room, size_t size)
{
    int file = mount->below == -1 ? -1 : open_at(mount->below, path, O_PATH);
    if (file == -1)
        return -1;
    ssize_t length = readlinkat(file, "", room, size);
    int error = errno;
    close(file);
    errno = error;
    return length;
}

DIR *below_list(const Mount *mount, const char *path)
{
    int folder = open_at(mount->below, path, O_RDONLY | O_DIRECTORY);
    DIR *list = folder == -1 ? NULL : fdopendir(folder);
    if (!list && folder != -1)
        close(folder);
    return list;
}

/* A folder in the folder is opened anew: 0 or an errno. */
static int sync_path(int below, const char *path)
{
    int folder = open_at(below, path, O_RDONLY | O_DIRECTORY);
    if (folder == -1)
        return errno;
    int error = fsync(folder) == 0 ? 0 : errno;
    close(folder);
    return error;
}

void below_sync(fuse_req_t request, fuse_ino_t number, int is_data_alone, struct fuse_file_info *info)
{
    Mount *mount = fuse_req_userdata(request);
    (void)is_data_alone, (void)info;
    Look look = look_at(mount, number);
    /* A server writes a name out before it answers the create or the deletion, so that without the folder there is nothing left to do. */
    int error = mount->below == -1 ? 0 : sync_path(mount->below, look.path);
    fuse_reply_err(request, error);
}

/* A file that is ours alone, and what it is; -1 where there is none. It isn't opened to be read, and no link is followed. */
static int find_own(int below, const char *path, struct stat *is)
{
    int file = below == -1 ? -1 : open_at(below, path, O_PATH);
    if (file == -1)
        return -1;
    if (fstat(file, is) == 0 && S_ISREG(is->st_mode) && is->st_nlink == 1 && is->st_uid == geteuid())
        return file;
    close(file);
    return -1;
}

/* Where it can't be set, the file keeps its mode. */
static void set_mode(int file, mode_t mode)
{
    char name[sizeof "/proc/self/fd/" + 3 * sizeof file];
    snprintf(name, sizeof name, "/proc/self/fd/%d", file);
    chmod(name, S_IRUSR | S_IWUSR | (mode & 0777));
    close(file);
}

void below_set_mode(const Mount *mount, const char *path, mode_t mode, bool is_new)
{
    struct stat is;
    int file = find_own(mount->below, path, &is);
    if (file != -1)
        set_mode(file, is_new ? mode & is.st_mode : mode);
}

void below_copy_mode(const Mount *mount, const char *path, const char *to)
{
    struct stat is, copy;
    int file = find_own(mount->below, path, &is);
    int copied = file == -1 ? -1 : find_own(mount->below, to, &copy);
    if (file != -1)
        close(file);
    if (copied != -1)
        set_mode(copied, is.st_mode);
}
