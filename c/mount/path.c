/* Paths as the server takes them. */
#include "path.h"

#include <errno.h>
#include <string.h>

/* FNV-1a, of 64 bits. */
uint64_t hash_of(const char *path)
{
    uint64_t hash = 14695981039346656037u;
    for (const char *at = path; *at; at++)
        hash = (hash ^ (unsigned char)*at) * 1099511628211u;
    return hash;
}

int path_join(char room[LONGEST_WIDE_PATH + 1], const char *folder, const char *name, bool is_wide)
{
    size_t folder_length = strlen(folder), length = strlen(name), slash = folder_length > 0 ? 1 : 0;
    const uint8_t *text = (const uint8_t *)name;
    if (length > LONGEST_NAME || folder_length + slash + length > (is_wide ? LONGEST_WIDE_PATH : LONGEST_PATH))
        return ENAMETOOLONG;
    if (!(is_wide ? is_wide_path : is_path)(text, length))
        return EINVAL;
    memcpy(room, folder, folder_length);
    room[folder_length] = '/';
    memcpy(room + folder_length + slash, name, length + 1);
    return 0;
}

bool path_is_in(const char *list, const char *path)
{
    size_t own = strlen(path);
    const char *item = list ? list : "";
    while (*item) {
        size_t length = strcspn(item, ":");
        if (length == own && strncmp(item, path, own) == 0)
            return true;
        item += length + (item[length] == ':');
    }
    return false;
}
