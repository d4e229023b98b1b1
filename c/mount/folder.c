/* Folders: what the server lists, and what lies below. */
#include "folder.h"

#include "attributes.h"
#include "below.h"
#include "path.h"
#include "error.h"

#include <errno.h>
#include <linux/fuse.h>
#include <stdio.h>
#include <stdlib.h>
#include <string.h>

/* What an open folder showed last: entries in the kernel's own form. It is read anew from the beginning. The mutex is its own. */
typedef struct {
    pthread_mutex_t mutex;
    char *entries;
    size_t length, size;
} Listing;

static Listing *listing_of(const struct fuse_file_info *info)
{
    return (Listing *)(uintptr_t)info->fh;
}

static int add(fuse_req_t request, Listing *listing, const char *name, const char *path, Kind kind)
{
    Mount *mount = fuse_req_userdata(request);
    struct stat attributes = {.st_ino = path[0] ? nodes_number(&mount->nodes, path) : FUSE_ROOT_ID, .st_mode = kind == A_FOLDER ? S_IFDIR : kind == A_LINK ? S_IFLNK : S_IFREG};
    size_t needed = fuse_add_direntry(request, NULL, 0, name, NULL, 0);
    if (listing->length + needed > listing->size) {
        size_t size = listing->size * 2 + needed + 4096;
        char *larger = realloc(listing->entries, size);
        if (!larger)
            return ENOMEM;
        listing->entries = larger;
        listing->size = size;
    }
    fuse_add_direntry(request, listing->entries + listing->length, needed, name, &attributes, (off_t)(listing->length + needed));
    listing->length += needed;
    return 0;
}

/* Whether the first `length` letters of an item name a folder that lies directly in the other. */
static bool lies_in(const char *item, size_t length, const char *folder)
{
    size_t own = strlen(folder), slash = own > 0 ? 1 : 0;
    return length > own + slash && strncmp(item, folder, own) == 0 && (own == 0 || item[own] == '/') && !memchr(item + own + slash, '/', length - own - slash);
}

/* Those folders in a folder that -o folders has. */
static int add_folders(fuse_req_t request, Listing *listing, const char *list, const char *folder)
{
    int error = 0;
    const char *item = list ? list : "";
    while (*item && error == 0) {
        size_t length = strcspn(item, ":");
        char path[LONGEST_WIDE_PATH + 1];
        snprintf(path, sizeof path, "%.*s", (int)length, item);
        if (lies_in(item, length, folder))
            error = add(request, listing, folder[0] ? path + strlen(folder) + 1 : path, path, A_FOLDER);
        item += length + (item[length] == ':');
    }
    return error;
}

static bool is_among(const char *names, const char *name)
{
    char line[LONGEST_WIDE_PATH + 3];
    snprintf(line, sizeof line, "\n%s\n", name);
    return strstr(names, line) != NULL;
}

/* What is listed lies in the root, and is no folder. A link is shown as what lies below. */
static int add_names(fuse_req_t request, Mount *mount, Listing *listing, char *names, const char *hidden)
{
    int error = 0;
    char *rest = names;
    for (char *name = strsep(&rest, "\n"); rest && error == 0; name = strsep(&rest, "\n"))
        if (!is_among(hidden, name) && !path_is_in(mount->options.folders, name) && below_kind(mount, name) != A_LINK)
            error = add(request, listing, name, name, A_FILE);
    return error;
}

/* One entry of a folder that lies below: a file, or another that isn't passed over. That is a name which no path has, and what is neither a file nor a folder nor a link. */
static int add_entry(fuse_req_t request, Listing *listing, const char *folder, const char *name, bool has_files, bool has_others)
{
    Mount *mount = fuse_req_userdata(request);
    char path[LONGEST_WIDE_PATH + 1];
    if (strcmp(name, ".") == 0 || strcmp(name, "..") == 0 || path_join(path, folder, name, mount->is_wide) != 0 || path_is_in(mount->options.folders, path))
        return 0;
    Kind kind = below_kind(mount, path);
    bool is_shown = kind == A_FILE ? has_files && !nodes_is_hidden(&mount->nodes, path) : kind != NOTHING && has_others;
    return is_shown ? add(request, listing, name, path, kind) : 0;
}

/* What lies in a folder below: its files, or the others, or all. */
static int add_below(fuse_req_t request, Listing *listing, const char *folder, bool has_files, bool has_others)
{
    Mount *mount = fuse_req_userdata(request);
    DIR *list = mount->below == -1 ? NULL : below_list(mount, folder);
    int error = 0;
    for (const struct dirent *entry = list ? readdir(list) : NULL; entry && error == 0; entry = readdir(list))
        error = add_entry(request, listing, folder, entry->d_name, has_files, has_others);
    if (list)
        closedir(list);
    return error;
}

/* The names in a memory of their own, for the line is to be free again. */
static int ask_list(Call *call, char **names)
{
    Reply reply;
    int error = call_take_name(call, (Want){.may_be_reserved = true, .may_be_last = true}, "", BESIDE_CREATES);
    if (error == 0)
        error = call_ask(call, request_list((uint8_t)call->mount->options.volume), &reply);
    if (error == 0)
        error = reply.status == KZS_TOO_MANY ? EOVERFLOW : errno_of(reply.status);
    if (error == 0) {
        *names = strndup((const char *)reply.bytes, reply.length);
        error = *names ? 0 : ENOMEM;
    }
    call_end(call);
    return error;
}

/* The files in the root, which the server lists: EOVERFLOW where its reply has no room for them. Names of deleted files are asked for before the list, which still has them: between the two one may go, and none may come back. */
static int add_files(fuse_req_t request, Listing *listing)
{
    Call call = call_of(request);
    char *hidden = nodes_hidden(&call.mount->nodes), *names = NULL;
    int error = hidden ? ask_list(&call, &names) : ENOMEM;
    if (error == 0)
        error = add_names(request, call.mount, listing, names, hidden);
    free(hidden);
    free(names);
    return error;
}

static int list(fuse_req_t request, fuse_ino_t number, Listing *listing)
{
    Mount *mount = fuse_req_userdata(request);
    Look look = look_at(mount, number);
    listing->length = 0;
    int error = add(request, listing, ".", look.path, A_FOLDER);
    if (error == 0)
        error = add(request, listing, "..", "", A_FOLDER);
    if (error == 0)
        error = add_folders(request, listing, mount->options.folders, look.path);
    if (error == 0)
        error = add_below(request, listing, look.path, look.path[0] != '\0', true);
    if (error == 0 && !look.path[0])
        error = add_files(request, listing);
    return error == EOVERFLOW && mount->below != -1 ? add_below(request, listing, "", true, false) : error;
}

/* Whoever still reads it has the mutex. */
static void free_listing(Listing *listing)
{
    pthread_mutex_lock(&listing->mutex);
    pthread_mutex_unlock(&listing->mutex);
    pthread_mutex_destroy(&listing->mutex);
    free(listing->entries);
    free(listing);
}

void folder_open(fuse_req_t request, fuse_ino_t number, struct fuse_file_info *info)
{
    (void)number;
    Listing *listing = calloc(1, sizeof *listing);
    if (!listing) {
        fuse_reply_err(request, ENOMEM);
        return;
    }
    pthread_mutex_init(&listing->mutex, NULL);
    info->fh = (uint64_t)(uintptr_t)listing;
    if (fuse_reply_open(request, info) == -ENOENT)
        free_listing(listing);
}

/* As many whole entries as fit: an entry's offset is where the next one begins. */
static size_t fitting(const Listing *listing, size_t from, size_t size)
{
    size_t to = from;
    while (to < listing->length) {
        const struct fuse_dirent *entry = (const void *)(listing->entries + to);
        if (entry->off - from > size)
            break;
        to = (size_t)entry->off;
    }
    return to - from;
}

void folder_read(fuse_req_t request, fuse_ino_t number, size_t size, off_t offset, struct fuse_file_info *info)
{
    Listing *listing = listing_of(info);
    pthread_mutex_lock(&listing->mutex);
    int error = offset == 0 ? list(request, number, listing) : 0;
    if (error != 0)
        fuse_reply_err(request, error);
    else if ((size_t)offset >= listing->length)
        fuse_reply_buf(request, NULL, 0);
    else
        fuse_reply_buf(request, listing->entries + offset, fitting(listing, (size_t)offset, size));
    pthread_mutex_unlock(&listing->mutex);
}

void folder_release(fuse_req_t request, fuse_ino_t number, struct fuse_file_info *info)
{
    (void)number;
    free_listing(listing_of(info));
    fuse_reply_err(request, 0);
}
