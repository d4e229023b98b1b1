/* What breaks an oplock: by what is held and what is done, what is left of it, and whether it has to be waited for. The kit's page "Breaking Oplocks" has a table for each operation. */
#include "oplock/held.h"

/* What isn't said is not in the way. */
#define TO(kind) {true, {(kind), false, false}}
#define WAITS(kind) {true, {(kind), true, false}}
#define FOR_ALL(kind) {true, {(kind), false, true}}

typedef struct {
    bool is_there;
    KzOplockBreak is;
} Row;

/* Who caches writes is waited for, since they come first; who caches a handle, since it may close that. */
static const Row rows[KZ_OPLOCK_USES][KZ_OPLOCK_KINDS] = {
    [KZ_OPENS] = {[KZ_LEVEL_1] = WAITS(KZ_LEVEL_2), [KZ_BATCH] = WAITS(KZ_LEVEL_2), [KZ_FILTER] = WAITS(KZ_NONE), [KZ_READ_WRITE] = WAITS(KZ_READ), [KZ_READ_WRITE_HANDLE] = WAITS(KZ_READ_HANDLE)},
    [KZ_OPENS_TO_READ] = {[KZ_LEVEL_1] = WAITS(KZ_LEVEL_2), [KZ_BATCH] = WAITS(KZ_LEVEL_2), [KZ_READ_WRITE] = WAITS(KZ_READ), [KZ_READ_WRITE_HANDLE] = WAITS(KZ_READ_HANDLE)},
    [KZ_OVERWRITES] = {[KZ_LEVEL_1] = WAITS(KZ_NONE),
                       [KZ_LEVEL_2] = TO(KZ_NONE),
                       [KZ_BATCH] = WAITS(KZ_NONE),
                       [KZ_FILTER] = WAITS(KZ_NONE),
                       [KZ_READ] = TO(KZ_NONE),
                       [KZ_READ_HANDLE] = TO(KZ_NONE),
                       [KZ_READ_WRITE] = WAITS(KZ_NONE),
                       [KZ_READ_WRITE_HANDLE] = WAITS(KZ_NONE)},
    [KZ_MEETS_SHARING] = {[KZ_READ_HANDLE] = WAITS(KZ_READ), [KZ_READ_WRITE_HANDLE] = WAITS(KZ_READ_WRITE)},
    [KZ_READS] = {[KZ_READ_WRITE] = WAITS(KZ_READ), [KZ_READ_WRITE_HANDLE] = WAITS(KZ_READ_HANDLE)},
    [KZ_WRITES] = {[KZ_LEVEL_1] = WAITS(KZ_NONE),
                   [KZ_LEVEL_2] = FOR_ALL(KZ_NONE),
                   [KZ_BATCH] = WAITS(KZ_NONE),
                   [KZ_FILTER] = WAITS(KZ_NONE),
                   [KZ_READ] = TO(KZ_NONE),
                   [KZ_READ_HANDLE] = TO(KZ_NONE),
                   [KZ_READ_WRITE] = WAITS(KZ_NONE),
                   [KZ_READ_WRITE_HANDLE] = WAITS(KZ_NONE)},
    [KZ_LOCKS] = {[KZ_LEVEL_1] = WAITS(KZ_NONE),
                  [KZ_LEVEL_2] = FOR_ALL(KZ_NONE),
                  [KZ_BATCH] = WAITS(KZ_NONE),
                  [KZ_FILTER] = WAITS(KZ_NONE),
                  [KZ_READ] = FOR_ALL(KZ_NONE),
                  [KZ_READ_HANDLE] = FOR_ALL(KZ_NONE),
                  [KZ_READ_WRITE] = WAITS(KZ_NONE),
                  [KZ_READ_WRITE_HANDLE] = WAITS(KZ_NONE)},
    [KZ_MOVES] = {[KZ_BATCH] = WAITS(KZ_NONE), [KZ_FILTER] = WAITS(KZ_NONE), [KZ_READ_HANDLE] = WAITS(KZ_READ), [KZ_READ_WRITE_HANDLE] = WAITS(KZ_READ_WRITE)},
    [KZ_DELETES] = {[KZ_READ_HANDLE] = WAITS(KZ_READ), [KZ_READ_WRITE_HANDLE] = WAITS(KZ_READ_WRITE)},
    [KZ_CHANGES_FOLDER] = {[KZ_READ] = TO(KZ_NONE), [KZ_READ_HANDLE] = TO(KZ_NONE)},
    [KZ_GIVES_UP_ALL] = {[KZ_LEVEL_1] = WAITS(KZ_NONE),
                         [KZ_LEVEL_2] = FOR_ALL(KZ_NONE),
                         [KZ_BATCH] = WAITS(KZ_NONE),
                         [KZ_FILTER] = WAITS(KZ_NONE),
                         [KZ_READ] = TO(KZ_NONE),
                         [KZ_READ_HANDLE] = TO(KZ_NONE),
                         [KZ_READ_WRITE] = WAITS(KZ_NONE),
                         [KZ_READ_WRITE_HANDLE] = WAITS(KZ_NONE)},
};

KzOplockBreak kz_break_of(KzOplockUse use, KzOplockKind kind)
{
    const Row *row = &rows[use][kind];
    return row->is_there ? row->is : (KzOplockBreak){kind, false, false};
}

/* ---- Kinds. */
static const struct {
    ULONG level; /* of one that is asked for by levels; 0 of the others */
    bool is_acknowledged, is_shared;
} kinds[KZ_OPLOCK_KINDS] = {
    [KZ_LEVEL_1] = {0, true, false},
    [KZ_LEVEL_2] = {0, false, true},
    [KZ_BATCH] = {0, true, false},
    [KZ_FILTER] = {0, true, false},
    [KZ_READ] = {OPLOCK_LEVEL_CACHE_READ, false, true},
    [KZ_READ_HANDLE] = {OPLOCK_LEVEL_CACHE_READ | OPLOCK_LEVEL_CACHE_HANDLE, true, true},
    [KZ_READ_WRITE] = {OPLOCK_LEVEL_CACHE_READ | OPLOCK_LEVEL_CACHE_WRITE, true, false},
    [KZ_READ_WRITE_HANDLE] = {OPLOCK_LEVEL_CACHE_READ | OPLOCK_LEVEL_CACHE_WRITE | OPLOCK_LEVEL_CACHE_HANDLE, true, false},
};

bool kz_is_acknowledged(KzOplockKind kind)
{
    return kinds[kind].is_acknowledged;
}

bool kz_is_shared_oplock(KzOplockKind kind)
{
    return kind != KZ_NONE && kinds[kind].is_shared;
}

bool kz_is_by_levels(KzOplockKind kind)
{
    return kind != KZ_NONE && kinds[kind].level;
}

ULONG kz_level_of(KzOplockKind kind)
{
    return kind == KZ_NONE ? 0 : kinds[kind].level;
}

KzOplockKind kz_kind_of(ULONG level)
{
    for (KzOplockKind kind = KZ_READ; kind < KZ_NONE; kind++)
        if (kinds[kind].level == level)
            return kind;
    return KZ_NONE;
}
