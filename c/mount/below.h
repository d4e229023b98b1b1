/* The server's folder itself, where -o below=FOLDER names it: folders and symbolic links are made and removed in it and get times, it is asked for its room and for names in folders, and synced, and
 * its files get modes. Nothing else of a file is touched: filters hear of all the rest. No link is followed, and nothing outside the folder is reached. */
#ifndef KZ_MOUNT_BELOW_H
#define KZ_MOUNT_BELOW_H

#include "mount.h"

#include <dirent.h>

/* Its descriptor, -1 where no folder is named. False: it can't be opened, which errno says. */
bool below_open(Mount *mount);
void below_close(Mount *mount);
/* Whether there is no room for so many bytes. Where no folder is named nobody knows. */
bool below_is_full(const Mount *mount, uint64_t bytes);
/* How much room is left; where no folder is named, room for one file of the largest size, for programs that look before they write. */
void below_tell_size(fuse_req_t request, fuse_ino_t number);
/* What lies below there, or is one of -o folders. NOTHING: neither a file nor a folder nor a link, or no folder is named. */
Kind below_kind(const Mount *mount, const char *path);
bool below_is_folder(const Mount *mount, const char *path);
/* Whether both are names of one file. */
bool below_is_same(const Mount *mount, const char *path, const char *other);
/* How much room a file takes is what it takes below, and its times are those that it has there, unless the mount has later ones; a folder and a link have sizes and counts of links from there, too. */
void below_tell(const Mount *mount, const Look *look, struct stat *attributes);
/* Makes a folder, which its owner may always use; removes an empty one; gives an empty one another name. Each answers 0 or an errno once that is written out, and EPERM where no folder is
 * named. */
int below_make_folder(const Mount *mount, const char *path, mode_t mode);
int below_remove_folder(const Mount *mount, const char *path);
/* The same of symbolic links. Another name mustn't be there yet. */
int below_make_link(const Mount *mount, const char *path, const char *target);
int below_remove_link(const Mount *mount, const char *path);
int below_move_link(const Mount *mount, const char *path, const char *to);
/* Sets times: last read, last changed, as for utimensat. 0 or an errno; where no folder is named nothing is set. */
int below_set_times(const Mount *mount, const char *path, const struct timespec times[2]);
/* The times that it has, to be set for another; where nobody knows them, none. */
void below_take_times(const Mount *mount, const char *path, struct timespec times[2]);
/* What a link says: how many bytes, or -1 with errno. */
ssize_t below_read_link(const Mount *mount, const char *path, char *room, size_t size);
/* Opens a folder to be listed: NULL with errno. */
DIR *below_list(const Mount *mount, const char *path);
/* Syncs a folder. Where none is named there is nothing left to do: servers write names out before they answer. */
void below_sync(fuse_req_t request, fuse_ino_t number, int is_data_alone, struct fuse_file_info *info);
/* The file below gets the mode as well, where it is ours. Its owner may read and write it always, for a server opens it at each call. A new one gets no more than it has. */
void below_set_mode(const Mount *mount, const char *path, mode_t mode, bool is_new);
/* The same of a copy: it gets the mode that the other has below. */
void below_copy_mode(const Mount *mount, const char *path, const char *to);

#endif
