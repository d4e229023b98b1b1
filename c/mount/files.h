/* Open files. A file lives on the line that opened it, its home. Where that is busy for long, as a filter holds a read there, it is opened once more elsewhere for the one operation. */
#ifndef KZ_MOUNT_FILES_H
#define KZ_MOUNT_FILES_H

#include "call.h"

/* Its node's list and its users are the nodes' mutex's; all else stays as it is. */
struct File {
    Errand errand; /* that closes it */
    Mount *mount;
    Node *node;
    Line *home;
    unsigned generation;
    uint64_t handle;
    File *next;
    unsigned users;
};

/* The call's handle becomes an open file of the node. NULL: no memory. */
File *file_open(Call *call, Node *node);
/* Any open file of the node, or NULL; `file_leave` gives it back. */
File *file_lend(Mount *mount, Node *node);
void file_leave(File *file);
/* A line and a handle for one operation on the file: 0 or an errno. Bytes are read and written on homes alone, all else on any line. */
int file_reach(Call *call, File *file, Matter matter, uint64_t *handle);
/* Ends such an operation. */
void file_done(Call *call, File *file);
/* Frees what wasn't closed at the mount's end. */
void files_free(Nodes *nodes);

#endif
