/* Calls of open files. */
#ifndef KZ_MOUNT_DATA_H
#define KZ_MOUNT_DATA_H

#include "call.h"

/* The largest read or write of the kernel's: several frames. */
#define LARGEST_REQUEST (MOST_AT_ONCE * LONGEST_TRANSFER)

void data_open(fuse_req_t request, fuse_ino_t number, struct fuse_file_info *info);
void data_create(fuse_req_t request, fuse_ino_t folder, const char *name, mode_t mode, struct fuse_file_info *info);
void data_read(fuse_req_t request, fuse_ino_t number, size_t size, off_t offset, struct fuse_file_info *info);
void data_write(fuse_req_t request, fuse_ino_t number, const char *bytes, size_t size, off_t offset, struct fuse_file_info *info);
void data_sync(fuse_req_t request, fuse_ino_t number, int is_data_alone, struct fuse_file_info *info);
void data_release(fuse_req_t request, fuse_ino_t number, struct fuse_file_info *info);

#endif
