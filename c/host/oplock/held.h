/* What is held of an oplock, for the files of this folder. */
#ifndef KZ_OPLOCK_HELD_H
#define KZ_OPLOCK_HELD_H

#include "oplock/oplock.h"

typedef struct KzHeldOplock {
    struct KzHeldOplock *next;
    const void *file;
    GUID key;
    bool has_key;
    KzOplockKind kind, left; /* what a break leaves of it */
    bool is_breaking;        /* and that is to be acknowledged */
    bool ends_with_close;    /* it is, and its owner closes the handle */
    void (*end)(void *given, const KzOplockEnd *how);
    void *given; /* the request that stands for it; NULL once that is over */
} KzHeldOplock;

typedef struct KzOplockWait {
    struct KzOplockWait *next;
    void (*go_on)(void *given);
    void *given;
} KzOplockWait;

struct KzOplock {
    KzHeldOplock *held;
    KzOplockWait *waits;
};

/* What a use leaves of one of that kind: the kind itself if it isn't in the way. */
typedef struct {
    KzOplockKind left;
    bool waits;    /* whoever does it, until that is acknowledged */
    bool is_for_all; /* also by a handle of the same key */
} KzOplockBreak;

KzOplockBreak kz_break_of(KzOplockUse use, KzOplockKind kind);
/* Whether a break of it has to be acknowledged. */
bool kz_is_acknowledged(KzOplockKind kind);
ULONG kz_level_of(KzOplockKind kind);
KzOplockKind kz_kind_of(ULONG level);

KzOplockSide kz_side_of(const KzHeldOplock *one);
KzHeldOplock *kz_hold_oplock(KzOplock *oplock, KzOplockKind kind, const KzOplockAsked *asked);
/* Its request is over, in that way. */
void kz_end_request(KzHeldOplock *one, NTSTATUS status, KzOplockKind left, const KzOplockSide *by);
void kz_drop_oplock(KzOplock *oplock, KzHeldOplock *gone);
/* Both. */
void kz_take_back_oplock(KzOplock *oplock, KzHeldOplock *gone, NTSTATUS status, KzOplockKind left, const KzOplockSide *by);
/* Those who wait look again. */
void kz_let_waiters(KzOplock *oplock);

#endif
