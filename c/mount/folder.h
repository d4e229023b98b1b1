/* Folders: files in the root are listed by the server. Folders, and files in other folders, are those that lie below, beside those of -o folders. */
#ifndef KZ_MOUNT_FOLDER_H
#define KZ_MOUNT_FOLDER_H

#include "call.h"

void folder_open(fuse_req_t request, fuse_ino_t number, struct fuse_file_info *info);
void folder_read(fuse_req_t request, fuse_ino_t number, size_t size, off_t offset, struct fuse_file_info *info);
void folder_release(fuse_req_t request, fuse_ino_t number, struct fuse_file_info *info);

#endif
