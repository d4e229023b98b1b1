/* Oplocks: of a stream of the file system, or a filter's own. Requests, operations that wait and file objects are known to their owner alone. */
#ifndef KZ_OPLOCK_OPLOCK_H
#define KZ_OPLOCK_OPLOCK_H

#include "host.h"

/* What is held: as the kit had it first, and by what is cached. */
typedef enum { KZ_LEVEL_1, KZ_LEVEL_2, KZ_BATCH, KZ_FILTER, KZ_READ, KZ_READ_HANDLE, KZ_READ_WRITE, KZ_READ_WRITE_HANDLE, KZ_NONE, KZ_OPLOCK_KINDS = KZ_NONE } KzOplockKind;
#define KZ_KIND(kind) (1u << (kind))
#define KZ_ALL_KINDS (KZ_KIND(KZ_OPLOCK_KINDS) - 1)
#define KZ_BATCH_KINDS (KZ_KIND(KZ_BATCH) | KZ_KIND(KZ_FILTER))
#define KZ_SHARED_KINDS (KZ_KIND(KZ_LEVEL_2) | KZ_KIND(KZ_READ) | KZ_KIND(KZ_READ_HANDLE))

/* What is done, as far as an oplock may be in its way. */
typedef enum {
    KZ_DOES_NOTHING,
    KZ_OPENS,
    KZ_OPENS_TO_READ, /* and shares that */
    KZ_OVERWRITES,
    KZ_MEETS_SHARING, /* a create that others' sharing refuses */
    KZ_READS,
    KZ_WRITES, /* bytes, or a size */
    KZ_LOCKS,
    KZ_MOVES, /* a rename or a link */
    KZ_DELETES,
    KZ_CHANGES_FOLDER,
    KZ_GIVES_UP_ALL, /* a filter asks for that */
    KZ_OPLOCK_USES
} KzOplockUse;

/* Who holds an oplock, asks for one, or does something: by a file object, and by the key of its handle. */
typedef struct {
    const void *file;
    const GUID *key; /* NULL: one that no other handle has */
    ULONG access, share; /* of a create, for whom it breaks */
} KzOplockSide;

/* How a request ends that was granted. */
typedef struct {
    NTSTATUS status;
    ULONG information;                     /* by the first ways to ask: FILE_OPLOCK_BROKEN_TO_LEVEL_2 or FILE_OPLOCK_BROKEN_TO_NONE */
    const REQUEST_OPLOCK_OUTPUT_BUFFER *levels; /* by the last one; else NULL */
} KzOplockEnd;

typedef struct {
    KzOplockSide by;
    bool has_others; /* handles, or locks of bytes, that are in the way of what is asked for */
    void (*end)(void *given, const KzOplockEnd *how);
    void *given;
} KzOplockAsked;

/* None is held as long as it is NULL. */
typedef struct KzOplock KzOplock;

/* ---- Requests, by their control code: what each asks for; KZ_NONE if it is none, or asks for what there isn't. */
bool kz_is_oplock_code(ULONG code);
/* It may stay in the file system until something happens. */
bool kz_waits_for_oplock(ULONG code);
KzOplockKind kz_oplock_asked(ULONG code, const REQUEST_OPLOCK_INPUT_BUFFER *input);
bool kz_is_shared_oplock(KzOplockKind kind);
bool kz_is_by_levels(KzOplockKind kind);
/* STATUS_PENDING: it is granted, and `end` is called once it is broken, given up or taken back. */
NTSTATUS kz_request_oplock(KzOplock **oplock, KzOplockKind kind, const KzOplockAsked *asked);
/* Of a break. STATUS_PENDING: what is left is granted by this very request. */
NTSTATUS kz_acknowledge_oplock(KzOplock *oplock, ULONG code, const REQUEST_OPLOCK_INPUT_BUFFER *input, const KzOplockAsked *asked);

/* ---- Breaks. */
/* What is done breaks what is in its way, of those kinds; true: whoever does it has to wait for an acknowledgement. */
bool kz_break_oplock(KzOplock *oplock, KzOplockUse use, const KzOplockSide *by, unsigned kinds);
bool kz_would_break_oplock(const KzOplock *oplock, KzOplockUse use, const KzOplockSide *by);
bool kz_is_oplock_breaking(const KzOplock *oplock);
/* Whether it, or what is left of it, is of one of those kinds. */
bool kz_has_oplock(const KzOplock *oplock, unsigned kinds);
/* No read or write without an IRP passes by who has to hear of it. */
bool kz_lets_fast_by(const KzOplock *oplock);
bool kz_is_oplock_of(const KzOplock *oplock, const void *file);
/* It is called as soon as some break is over. */
void kz_wait_for_oplock(KzOplock *oplock, void (*go_on)(void *given), void *given);
void kz_wait_no_more(KzOplock *oplock, const void *given);
bool kz_waits_in_oplock(const KzOplock *oplock, const void *given);

/* ---- Ends. */
/* A handle's cleanup is over: what it held is given up. All of it, if there is no file. */
void kz_give_up_oplock(KzOplock *oplock, const void *file);
/* That request is cancelled; false: it isn't granted here. */
bool kz_cancel_oplock(KzOplock *oplock, const void *given);
/* The request is gone, and nobody is to be told. */
void kz_forget_request(KzOplock *oplock, const void *given);
void kz_free_oplock(KzOplock **oplock);
/* The same, if nothing is held and nobody waits. */
void kz_tidy_oplock(KzOplock **oplock);
bool kz_have_same_key(const KzOplockSide *one, const KzOplockSide *other);

#endif
