/* Requests, from their beginning to their reply; and what goes on behind them: operations that were let go, closes that are due, what waits for its turn. */
#ifndef KZ_MANAGER_PERFORM_H
#define KZ_MANAGER_PERFORM_H

#include "host.h"
#include "core/op.h"

/* An operation that is asked for, by the manager's event, with what that is handed. */
typedef struct {
    KazdrinEvent event;
    const void *bytes;
    size_t length;
    const char *path;       /* of a create */
    const KzCreate *create; /* what it asks for; NULL: the usual */
    ULONG irp_flags;        /* beside its usual ones */
    bool is_fast;           /* without an IRP */
    const KzAsked *opaque; /* what it asks, if the manager doesn't look into it */
} KzBegin;

KzReply kz_perform(KazdrinEvent asked, const void *bytes, size_t length, const char *path);
/* A create of a client's, with the access as it was said. */
KzReply kz_perform_create(uint8_t volume, const char *path, const KzCreate *create);
KzReply kz_close_file(uint64_t handle);
void kz_settle(void);
/* The next one that was let go on is carried on; false: there is none. */
bool kz_run_resumed(void);
void kz_uses_closes(void); /* whether any are due */
/* A client's, whose reply is passed on. */
KzReply kz_perform_as(const KzBegin *asked);
KzAnswer kz_collect(KzOp *op);
void kz_go_on(KzOp *op);
void kz_cleanup_over(KzFile *file);
/* A client's, by a handle, or on a volume. The reply is passed on. */
KzReply kz_ask_file(uint64_t handle, const KzAsked *asked);
/* A read or a write without an IRP; where a filter disallows that, once more with one. */
KzReply kz_perform_fast(const KzBegin *asked);
/* The file is marked to go with its last handle, or isn't any more. */
KzReply kz_dispose_file(uint64_t handle, bool is_gone);
/* After a success the second one follows, whose reply isn't passed on. */
KzReply kz_ask_file_twice(uint64_t handle, const KzAsked *first, const KzAsked *second);
KzReply kz_ask_volume(PFLT_VOLUME volume, const KzAsked *asked);
/* A fast query by a name; where a filter disallows it, a create, a query and a close. */
KzReply kz_open_network(PFLT_VOLUME volume, const char *path);

#endif
