/* Calls by name: look-ups, attributes, deletions. */
#ifndef KZ_MOUNT_NAMES_H
#define KZ_MOUNT_NAMES_H

#include "call.h"

void name_look_up(fuse_req_t request, fuse_ino_t folder, const char *name);
void name_forget(fuse_req_t request, fuse_ino_t number, uint64_t lookups);
void name_forget_all(fuse_req_t request, size_t count, struct fuse_forget_data *forgets);
void name_get_attributes(fuse_req_t request, fuse_ino_t number, struct fuse_file_info *info);
void name_set_attributes(fuse_req_t request, fuse_ino_t number, struct stat *wanted, int which, struct fuse_file_info *info);
void name_unlink(fuse_req_t request, fuse_ino_t folder, const char *name);
/* Deletes a file: 0 or an errno. */
int unlink_file(fuse_req_t request, const char *path);
/* Deletes a path on the call's line, alone in its gate: 0 or an errno. Where it was copied before, its node has the other name from then on. */
int delete_path(Call *call, const char *path, const char *moved_to);
/* Opens what is there, on a call's line that is alone in its gate: 0 or an errno. */
int open_inside(Call *call, const char *path);
/* The path of a name in a folder: 0 or an errno. */
int path_of(Mount *mount, fuse_ino_t folder, const char *name, char path[LONGEST_WIDE_PATH + 1]);
/* Takes a line, which is to be a home or not, and opens what is there: 0 or an errno. */
int open_path(Call *call, const char *path, bool is_home);

#endif
