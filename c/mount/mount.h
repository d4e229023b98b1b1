/* The mount: what its modules share. */
#ifndef KZ_MOUNT_MOUNT_H
#define KZ_MOUNT_MOUNT_H

#include "gate.h"
#include "nodes.h"
#include "pool.h"

#define FUSE_USE_VERSION 312
#include <fuse_lowlevel.h>

/* What is kept of a mode: a set-user-ID or a set-group-ID bit is refused. */
#define KEPT_MODE 01777

/* As -o says them. */
typedef struct {
    char *socket;
    unsigned connections, volume, mode;
    bool is_mode_given;
    int is_cached, has_copyrename, has_memtimes, has_memmodes, is_kept, is_for_others, is_shared;
    double attr; /* seconds that names and attributes are kept by the kernel */
    char *folders, *below;
} Options;

/* Only the pool, the nodes and the gates change once it is mounted; each has its own mutex. */
typedef struct {
    Options options;
    Pool pool;
    Nodes nodes;
    Gates gates;
    bool knows_rename, knows_look; /* the server's frames have it */
    bool is_wide;                  /* and its paths letters beyond ASCII */
    int below; /* the descriptor of the server's folder, or -1 */
    struct fuse_session *session;
} Mount;

#endif
