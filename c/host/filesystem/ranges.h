/* Locks of ranges of bytes, each a file object's. */
#ifndef KZ_FILESYSTEM_RANGES_H
#define KZ_FILESYSTEM_RANGES_H

#include "host.h"
#include "filesystem/tree.h"

typedef struct {
    uint64_t from, length;
    bool is_exclusive;
    ULONG key;
} KzRange;

/* A lock that somebody has of something: a file object, of its stream or of a filter's FILE_LOCK. */
typedef struct KzHeldRange {
    struct KzHeldRange *next;
    const void *owner;
    KzRange range;
} KzHeldRange;

/* STATUS_LOCK_NOT_GRANTED if another one is in the way. */
NTSTATUS kz_hold_range(KzHeldRange **list, const void *owner, const KzRange *range);
/* One that goes, exclusive ones first; NULL: there is none. Whoever takes it frees it. */
KzHeldRange *kz_take_range(KzHeldRange **list, const void *owner, const KzRange *range);
/* The same of any of the owner's, or of those with that key. */
KzHeldRange *kz_take_any_range(KzHeldRange **list, const void *owner, const ULONG *key);
/* Reads meet the exclusive locks of others; writes meet shared ones too, also the owner's. Whose key another lock has is another owner, if a key is given. */
bool kz_is_held_against(const KzHeldRange *list, const void *owner, const ULONG *key, uint64_t from, uint64_t length, bool is_write);

extern const struct KzModule kz_range_module;
NTSTATUS kz_lock_range(KzFile *file, const KzRange *range);
/* The same, and where it isn't to be had the operation waits until it is. */
NTSTATUS kz_wait_for_range(KzOp *op, const KzRange *range);
NTSTATUS kz_unlock_range(KzFile *file, const KzRange *range);
/* All of the file object's, or those with that key. */
NTSTATUS kz_unlock_ranges(KzFile *file, const ULONG *key);
bool kz_has_ranges(const KzStream *stream);
/* Whether a read or a write by that file object meets a lock of another one. */
bool kz_is_locked(const KzFile *file, uint64_t from, uint64_t length, bool is_write);

#endif
