/* pass FOLDER MOUNTPOINT: a bare pass-through of one folder, with no filters and no server, and each read and write the kernel's own as in the mount. Measures stand beside it. */
#define _GNU_SOURCE
#define FUSE_USE_VERSION 312
#include <fuse.h>

#include <dirent.h>
#include <errno.h>
#include <fcntl.h>
#include <stdio.h>
#include <string.h>
#include <unistd.h>

static int folder; /* set before the threads begin */

/* The path below the folder. */
static const char *below(const char *path)
{
    return path[1] ? path + 1 : ".";
}

static int outcome(long result)
{
    return result == -1 ? -errno : (int)result;
}

static int get_attributes(const char *path, struct stat *found, struct fuse_file_info *info)
{
    return outcome(info ? fstat((int)info->fh, found) : fstatat(folder, below(path), found, AT_SYMLINK_NOFOLLOW));
}

static int open_with(const char *path, int flags, mode_t mode, struct fuse_file_info *info)
{
    int file = openat(folder, below(path), flags & ~O_APPEND, mode);
    if (file == -1)
        return -errno;
    info->fh = (uint64_t)file;
    info->direct_io = 1;
    return 0;
}

static int open_file(const char *path, struct fuse_file_info *info)
{
    return open_with(path, info->flags, 0, info);
}

static int create_file(const char *path, mode_t mode, struct fuse_file_info *info)
{
    return open_with(path, info->flags | O_CREAT, mode, info);
}

static int read_file(const char *path, char *room, size_t size, off_t offset, struct fuse_file_info *info)
{
    (void)path;
    return outcome(pread((int)info->fh, room, size, offset));
}

static int write_file(const char *path, const char *bytes, size_t size, off_t offset, struct fuse_file_info *info)
{
    (void)path;
    return outcome(pwrite((int)info->fh, bytes, size, offset));
}

static int resize(const char *path, off_t size, struct fuse_file_info *info)
{
    if (info)
        return outcome(ftruncate((int)info->fh, size));
    int file = openat(folder, below(path), O_WRONLY);
    int result = file == -1 ? -errno : outcome(ftruncate(file, size));
    if (file != -1)
        close(file);
    return result;
}

static int sync_file(const char *path, int is_data_alone, struct fuse_file_info *info)
{
    (void)path;
    return outcome(is_data_alone ? fdatasync((int)info->fh) : fsync((int)info->fh));
}

static int release(const char *path, struct fuse_file_info *info)
{
    (void)path;
    return outcome(close((int)info->fh));
}

static int remove_file(const char *path)
{
    return outcome(unlinkat(folder, below(path), 0));
}

static int list(const char *path, void *room, fuse_fill_dir_t fill, off_t offset, struct fuse_file_info *info, enum fuse_readdir_flags flags)
{
    (void)offset, (void)info, (void)flags;
    int place = openat(folder, below(path), O_RDONLY | O_DIRECTORY);
    DIR *names = place == -1 ? NULL : fdopendir(place);
    if (!names)
        return -errno;
    for (const struct dirent *entry = readdir(names); entry; entry = readdir(names))
        fill(room, entry->d_name, NULL, 0, 0);
    closedir(names);
    return 0;
}

static void *begin(struct fuse_conn_info *kernel, struct fuse_config *config)
{
    (void)kernel;
    config->entry_timeout = config->attr_timeout = config->negative_timeout = 0;
    return NULL;
}

static const struct fuse_operations operations = {
    .init = begin,       .getattr = get_attributes, .open = open_file,  .create = create_file, .read = read_file, .write = write_file,
    .truncate = resize,  .fsync = sync_file,        .release = release, .unlink = remove_file, .readdir = list,
};

int main(int count, char **words)
{
    if (count < 3) {
        fprintf(stderr, "usage: %s FOLDER MOUNTPOINT [-f] [-o ..]\n", words[0]);
        return 2;
    }
    folder = open(words[1], O_RDONLY | O_DIRECTORY);
    if (folder == -1) {
        perror(words[1]);
        return 3;
    }
    words[1] = words[0];
    return fuse_main(count - 1, words + 1, &operations, NULL);
}
