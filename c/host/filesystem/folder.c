/* A folder of the host machine: what is called there, below one descriptor. */
#define _GNU_SOURCE
#include "filesystem/folder.h"

#include "host.h"
#include "core/spell.h"
#include "filesystem/listing.h"

#include "wire/frame.h"

#include <dirent.h>
#include <errno.h>
#include <fcntl.h>
#include <linux/openat2.h>
#include <stdio.h>
#include <string.h>
#include <sys/stat.h>
#include <sys/syscall.h>
#include <unistd.h>

enum { FILE_NOT_FOUND = 19, ALREADY_EXISTS = 20, END_OF_FILE = 31 };

#define LARGEST ((uint64_t)1 << 40)

int kz_open_folder(KzFolder *folder, const char *path)
{
    folder->descriptor = open(path, O_RDONLY | O_DIRECTORY | O_CLOEXEC);
    return folder->descriptor == -1 ? errno : 0;
}

/* As fltd says what the host tells. */
static KzFolderAnswer refused(int error)
{
    switch (error) {
    case 0:
        return (KzFolderAnswer){.status = KZS_OK};
    case ENOENT:
    case ENOTDIR:
        return (KzFolderAnswer){.status = FILE_NOT_FOUND};
    case EEXIST:
        return (KzFolderAnswer){.status = ALREADY_EXISTS};
    default:
        return (KzFolderAnswer){.status = KZS_DEVICE_FAULT};
    }
}

static int open_below(const KzFolder *folder, const char *path, int flags)
{
    char spelt[KZ_PATH];
    kz_spell_outside(spelt, sizeof spelt, path);
    struct open_how how = {.flags = (uint64_t)(flags | O_CLOEXEC), .mode = flags & O_CREAT ? 0666 : 0, .resolve = RESOLVE_BENEATH | RESOLVE_NO_MAGICLINKS};
    return (int)syscall(SYS_openat2, folder->descriptor, spelt, &how, sizeof how);
}

/* A file that has no name any more is opened by what was kept of it. */
static int open_orphan(const KzFolder *folder, struct stat *found)
{
    int file = fcntl(folder->orphan - 1, F_DUPFD_CLOEXEC, 0);
    if (file != -1)
        fstat(file, found);
    return file;
}

/* Looks what is there before it is opened: to open a pipe or a device may wait. -1 and errno: it can't be had. */
static int open_regular(const KzFolder *folder, const char *path, int flags, struct stat *found)
{
    if (folder->orphan)
        return open_orphan(folder, found);
    int file = open_below(folder, path, O_PATH);
    if (file == -1)
        return -1;
    bool is_regular = fstat(file, found) == 0 && S_ISREG(found->st_mode);
    if (is_regular && flags == O_PATH)
        return file;
    close(file);
    errno = EIO;
    return is_regular ? open_below(folder, path, flags | O_NONBLOCK | O_NOCTTY) : -1;
}

/* Closes it, and answers with what went wrong before, or with nothing. */
static KzFolderAnswer done(int file, bool is_right)
{
    int error = is_right ? 0 : errno;
    if (file != -1)
        close(file);
    return refused(error);
}

/* The folder in which a file lies. */
static int open_above(const KzFolder *folder, const char *path)
{
    char above[KZ_PATH];
    const char *slash = strrchr(path, '/');
    snprintf(above, sizeof above, "%.*s", slash ? (int)(slash - path) : 1, slash ? path : ".");
    return open_below(folder, above, O_RDONLY | O_DIRECTORY);
}

/* Has the host write out the names in a folder. One that can't sync a folder has nothing to write out there. */
static bool sync_names(int place)
{
    return place != -1 && (fsync(place) == 0 || errno == EINVAL);
}

/* The same of the folder in which a file lies. */
static bool sync_above(const KzFolder *folder, const char *path)
{
    int place = open_above(folder, path);
    bool is_right = sync_names(place);
    int error = errno;
    if (place != -1)
        close(place);
    errno = error;
    return is_right;
}

static KzFolderAnswer create_existing(const KzFolder *folder, const char *path)
{
    struct stat found;
    int file = open_regular(folder, path, O_PATH, &found);
    return done(file, file != -1);
}

static KzFolderAnswer create(const KzFolder *folder, const char *path, uint8_t mode)
{
    if (mode == 0)
        return create_existing(folder, path);
    int file = open_below(folder, path, O_WRONLY | O_CREAT | O_EXCL);
    if (file == -1 && errno == EEXIST && mode == 2)
        return create_existing(folder, path);
    return done(file, file != -1 && sync_above(folder, path));
}

/* Reads until there are so many, or the file ends: how many, or -1. */
static ssize_t fill(int file, uint8_t *room, size_t length, uint64_t offset, uint64_t size)
{
    size_t count = 0;
    while (count < length && (count == 0 || offset + count < size)) {
        ssize_t more = pread(file, room + count, length - count, (off_t)(offset + count));
        if (more == 0)
            break;
        if (more == -1 && errno != EINTR)
            return -1;
        count += more > 0 ? (size_t)more : 0;
    }
    return (ssize_t)count;
}

static uint8_t room[KZ_BYTES]; /* of the last answer */

static KzFolderAnswer read_part(const KzFolder *folder, const char *path, uint64_t offset, size_t length)
{
    struct stat found;
    int file = open_regular(folder, path, O_RDONLY, &found);
    ssize_t count = file == -1 ? -1 : fill(file, room, length, offset, (uint64_t)found.st_size);
    KzFolderAnswer answer = done(file, count != -1);
    if (answer.status == KZS_OK && count == 0 && length > 0)
        answer.status = END_OF_FILE;
    if (answer.status == KZS_OK) {
        answer.information = answer.length = (size_t)count;
        answer.bytes = room;
    }
    return answer;
}

static bool put_all(int file, const uint8_t *bytes, size_t length, uint64_t offset)
{
    size_t count = 0;
    while (count < length) {
        ssize_t more = pwrite(file, bytes + count, length - count, (off_t)(offset + count));
        if (more == -1 && errno != EINTR)
            return false;
        count += more > 0 ? (size_t)more : 0;
    }
    return true;
}

static KzFolderAnswer write_part(const KzFolder *folder, const char *path, uint64_t offset, const uint8_t *bytes, size_t length)
{
    struct stat found;
    int file = open_regular(folder, path, length > 0 ? O_WRONLY : O_PATH, &found);
    return done(file, file != -1 && put_all(file, bytes, length, offset));
}

static KzFolderAnswer size_of(const KzFolder *folder, const char *path)
{
    struct stat found;
    int file = open_regular(folder, path, O_PATH, &found);
    KzFolderAnswer answer = done(file, file != -1);
    if (answer.status == KZS_OK)
        answer.information = (uint64_t)found.st_size;
    return answer;
}

static KzFolderAnswer set_size(const KzFolder *folder, const char *path, uint64_t size)
{
    struct stat found;
    int file = open_regular(folder, path, O_WRONLY, &found);
    return done(file, file != -1 && ftruncate(file, (off_t)size) == 0);
}

static KzFolderAnswer flush(const KzFolder *folder, const char *path)
{
    struct stat found;
    int file = open_regular(folder, path, O_RDONLY, &found);
    return done(file, file != -1 && fsync(file) == 0 && (folder->orphan || sync_above(folder, path)));
}

/* A link is taken away, and not what it leads to. */
static KzFolderAnswer unlink_file(const KzFolder *folder, const char *path)
{
    const char *slash = strrchr(path, '/');
    KzFolderAnswer answer = create_existing(folder, path);
    if (answer.status != KZS_OK)
        return answer;
    int place = open_above(folder, path);
    return done(place, place != -1 && unlinkat(place, slash ? slash + 1 : path, 0) == 0 && sync_names(place));
}

/* ---- Names, for what the manager hasn't. */
/* Seconds since 1970 as the kit's tenths of microseconds since 1601. */
static int64_t time_of(const struct timespec *time)
{
    return (time->tv_sec + 11644473600LL) * 10000000LL + time->tv_nsec / 100;
}

static uint64_t nanoseconds(const struct timespec *time)
{
    return (uint64_t)time->tv_sec * 1000000000u + (uint64_t)time->tv_nsec;
}

void kz_folder_look(const KzFolder *folder, const char *path, KzFound *found)
{
    struct stat is;
    int file = *path ? open_below(folder, path, O_PATH) : folder->descriptor;
    *found = (KzFound){.is_other = file == -1 && errno != ENOENT && errno != ENOTDIR};
    if (file == -1)
        return;
    bool is_seen = fstat(file, &is) == 0, is_directory = is_seen && S_ISDIR(is.st_mode), is_file = is_seen && S_ISREG(is.st_mode);
    if (is_directory || is_file)
        *found = (KzFound){.is_there = true, .is_directory = is_directory, .size = is_file ? (uint64_t)is.st_size : 0, .written = time_of(&is.st_mtim), .mode = is.st_mode & 07777, .read_at = nanoseconds(&is.st_atim), .written_at = nanoseconds(&is.st_mtim)};
    else
        found->is_other = true;
    if (*path)
        close(file);
}

void kz_folder_entries(const KzFolder *folder, const char *path, void (*say)(void *given, const char *name), void *given)
{
    int file = open_below(folder, *path ? path : ".", O_RDONLY | O_DIRECTORY);
    DIR *place = file == -1 ? NULL : fdopendir(file);
    char name[1300];
    for (const struct dirent *entry = place ? readdir(place) : NULL; entry; entry = readdir(place))
        if (kz_unspell_outside(name, sizeof name, entry->d_name) && is_wide_path((const uint8_t *)name, strlen(name)))
            say(given, name);
    if (place)
        closedir(place);
}

typedef struct {
    char text[1024];
} Spelt;

static const char *last_of(const char *path, Spelt *room)
{
    const char *slash = strrchr(path, '/');
    kz_spell_outside(room->text, sizeof room->text, slash ? slash + 1 : path);
    return room->text;
}

static bool rename_over(int from, const char *old, int to, const char *fresh, bool replaces)
{
    return renameat2(from, old, to, fresh, replaces ? 0 : RENAME_NOREPLACE) == 0;
}

static bool link_over(int from, const char *old, int to, const char *fresh)
{
    unlinkat(to, fresh, 0);
    return linkat(from, old, to, fresh, 0) == 0;
}

int kz_folder_hold(const KzFolder *folder, const char *path)
{
    struct stat found;
    int file = open_regular(folder, path, O_RDWR, &found);
    return file != -1 ? file : open_regular(folder, path, O_RDONLY, &found);
}

KzFolderAnswer kz_folder_rename(const KzFolder *folder, const char *from, const char *to, bool is_link, bool replaces)
{
    Spelt old, fresh;
    int place = open_above(folder, from), other = open_above(folder, to);
    last_of(from, &old);
    last_of(to, &fresh);
    bool is_right = place != -1 && other != -1 && (is_link ? link_over(place, old.text, other, fresh.text) : rename_over(place, old.text, other, fresh.text, replaces)) && sync_names(other);
    int error = errno;
    if (other != -1)
        close(other);
    errno = error;
    return done(place, is_right && sync_names(place));
}

KzFolderAnswer kz_folder_make(const KzFolder *folder, const char *path)
{
    Spelt name;
    int place = open_above(folder, path);
    return done(place, place != -1 && mkdirat(place, last_of(path, &name), 0777) == 0 && sync_names(place));
}

/* How it is removed; -1 with errno: it isn't there, or is neither a file nor a link nor a directory. */
static int removal_of(int place, const char *name)
{
    struct stat is;
    if (place == -1 || fstatat(place, name, &is, AT_SYMLINK_NOFOLLOW) != 0)
        return -1;
    errno = EIO;
    return S_ISDIR(is.st_mode) ? AT_REMOVEDIR : S_ISREG(is.st_mode) || S_ISLNK(is.st_mode) ? 0 : -1;
}

KzFolderAnswer kz_folder_unlink(const KzFolder *folder, const char *path)
{
    Spelt name;
    int place = open_above(folder, path), how = removal_of(place, last_of(path, &name));
    return done(place, how != -1 && unlinkat(place, name.text, how) == 0 && sync_names(place));
}

static KzFolderAnswer list(const KzFolder *folder)
{
    size_t length = 0;
    int error = kz_list_names(folder->descriptor, room, sizeof room, &length);
    if (error == EOVERFLOW)
        return (KzFolderAnswer){.status = KZS_TOO_MANY};
    KzFolderAnswer answer = refused(error);
    if (error == 0) {
        answer.information = answer.length = length;
        answer.bytes = room;
    }
    return answer;
}

/* A driver may have put other parameters in place of the client's. */
static bool is_within_limits(const KazdrinData *call)
{
    uint64_t length = call->operation == KZE_READ ? call->len : call->operation == KZE_WRITE ? call->length : 0;
    if (call->operation == KZE_READ || call->operation == KZE_WRITE)
        return length <= KZ_BYTES && call->offset <= LARGEST && length <= LARGEST - call->offset;
    return call->operation != KZE_SET_SIZE || call->offset <= LARGEST;
}

KzFolderAnswer kz_call_folder(KzFolder *folder, const KazdrinData *call, const char *path, const uint8_t *bytes)
{
    if (call->operation == KZE_LIST)
        return list(folder);
    if (!*path || !is_within_limits(call))
        return (KzFolderAnswer){.status = KZS_BAD_REQUEST};
    switch (call->operation) {
    case KZE_CREATE:
        return create(folder, path, call->mode);
    case KZE_READ:
        return read_part(folder, path, call->offset, call->len);
    case KZE_WRITE:
        return write_part(folder, path, call->offset, bytes, call->length);
    case KZE_QUERY_SIZE:
        return size_of(folder, path);
    case KZE_SET_SIZE:
        return set_size(folder, path, call->offset);
    case KZE_FLUSH:
        return flush(folder, path);
    case KZE_CLOSE:
        return unlink_file(folder, path);
    default:
        return refused(0);
    }
}
