/* The names of the files in a folder of the host machine. */
#define _GNU_SOURCE
#include "filesystem/listing.h"

#include "core/spell.h"

#include "wire/frame.h"

#include <dirent.h>
#include <errno.h>
#include <fcntl.h>
#include <stdlib.h>
#include <string.h>
#include <sys/stat.h>
#include <unistd.h>

typedef struct {
    char **names;
    size_t count, room, bytes;
} Names;

static bool may_be_file(int folder, const struct dirent *entry)
{
    struct stat found;
    if (entry->d_type != DT_UNKNOWN)
        return entry->d_type == DT_REG || entry->d_type == DT_LNK;
    return fstatat(folder, entry->d_name, &found, AT_SYMLINK_NOFOLLOW) == 0 && (S_ISREG(found.st_mode) || S_ISLNK(found.st_mode));
}

static int keep(Names *names, const char *name)
{
    if (names->count == names->room) {
        size_t room = names->room * 2 + 64;
        char **larger = realloc(names->names, room * sizeof *larger);
        if (!larger)
            return ENOMEM;
        names->names = larger;
        names->room = room;
    }
    char *copy = strdup(name);
    if (!copy)
        return ENOMEM;
    names->names[names->count++] = copy;
    names->bytes += strlen(copy) + 1;
    return 0;
}

static int keep_all(DIR *place, Names *names, size_t size)
{
    int error = 0;
    char name[1300];
    errno = 0;
    for (const struct dirent *entry = readdir(place); entry && error == 0; entry = error == 0 ? readdir(place) : NULL) {
        if (kz_unspell_outside(name, sizeof name, entry->d_name) && is_wide_path((const uint8_t *)name, strlen(name)) && may_be_file(dirfd(place), entry))
            error = keep(names, name);
        if (names->bytes > size)
            error = EOVERFLOW;
        errno = 0;
    }
    return error != 0 ? error : errno;
}

static int by_bytes(const void *one, const void *other)
{
    return strcmp(*(char *const *)one, *(char *const *)other);
}

static void spell(const Names *names, uint8_t *room)
{
    for (size_t at = 0; at < names->count; at++) {
        size_t length = strlen(names->names[at]);
        memcpy(room, names->names[at], length);
        room[length] = '\n';
        room += length + 1;
    }
}

static void free_names(Names *names)
{
    for (size_t at = 0; at < names->count; at++)
        free(names->names[at]);
    free(names->names);
}

int kz_list_names(int folder, uint8_t *room, size_t size, size_t *length)
{
    Names names = {0};
    int copy = openat(folder, ".", O_RDONLY | O_DIRECTORY | O_CLOEXEC);
    DIR *place = copy == -1 ? NULL : fdopendir(copy);
    if (!place)
        return errno;
    int error = keep_all(place, &names, size);
    if (error == 0) {
        if (names.count > 0)
            qsort(names.names, names.count, sizeof *names.names, by_bytes);
        spell(&names, room);
        *length = names.bytes;
    }
    closedir(place);
    free_names(&names);
    return error;
}
