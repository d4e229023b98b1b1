/* Deletions, and the counts of handles by which a file goes with its last one. */
#ifndef KZ_FILESYSTEM_DELETION_H
#define KZ_FILESYSTEM_DELETION_H

#include "host.h"
#include "filesystem/tree.h"

NTSTATUS kz_dispose(KzFile *file, ULONG flags);
/* Nobody finds the file by that name any more; with its last one it goes itself. */
void kz_take_away(KzName *name);
/* The same with what comes of it: the notice, the tunnel, a folder of the host machine. Where that refuses it nothing is done: the manager's status. */
uint8_t kz_delete_name(KzName *name);
/* A create gives the file a handle; the cleanup of one has come to the file system. */
void kz_count_open(KzFile *file);
void kz_count_no_open(KzFile *file); /* it failed after all, or its handle was dropped */
void kz_end_cleanup(KzFile *file);
/* Whether nothing lies below the directory. */
bool kz_is_empty(const KzName *directory);

#endif
