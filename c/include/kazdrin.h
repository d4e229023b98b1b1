/* The manager for C: what the archive libkazdrin_c.a exports. crates/kazdrin_c says what each call makes of a session, and its check proves it.
 *
 * A handle that is all zeros is closed. Only kazdrin_open opens it; no call but kazdrin_close ends it. Nothing in it is for the caller to read or write.
 * One thread at a time uses a handle. Each pointer is to what its type says, never null, also where the length beside it is 0. */
#ifndef KAZDRIN_H
#define KAZDRIN_H

#include <stddef.h>
#include <stdint.h>

typedef struct {
    struct { void *at; } kept;
    uint8_t is_open;
} Kazdrin;

/* An event with what it is handed. Which fields an event reads stands beside its number; it reads no others. */
typedef struct {
    uint32_t event;
    uint32_t slot, generation; /* a context */
    uint32_t len;
    uint64_t operation, handle, offset, number, pre, post;
    uint16_t instance;
    uint8_t contexts, query, unload, worker, filter, volume, kind, mode, flag, status;
} KazdrinEvent;

/* What an event answered. `has` says whether a context, an operation or a handle that may be absent is there; `length` is how many bytes there are, of which
 * as many are copied as there is room for. Of an event without an answer that was refused with 34, `number` says how many are in the way. `due` is
 * 1 after an event of kazdrin_step or kazdrin_attach if some context waits for its cleanup then, so that nobody asks for one in vain; other calls tell 0. */
typedef struct {
    uint32_t slot, generation;
    uint64_t operation, handle, number, information, length;
    uint16_t instance;
    uint8_t filter, volume, kind, action, status, has, due;
} KazdrinTold;

/* What a worker was lent, in `lent`: nothing, the data of a preoperation, a call of the base, the data of a postoperation, a drain. Of data and of a call:
 * the operation by its event's number (KZE_OTHER for one that KZE_ON_VOLUME began); its offset, len and mode as its event has them; and the answer so far, status with number, and information. */
typedef struct {
    uint64_t offset, information, number, length;
    uint32_t len;
    uint8_t volume, operation, mode, status, lent;
} KazdrinData;

/* Contexts that were born and cleaned up, references that callbacks left behind, and those that the worker holds. */
typedef struct {
    uint64_t born, cleaned, leaks, held;
} KazdrinCounts;

enum { KZ_LENT_NOTHING, KZ_LENT_PRE, KZ_LENT_BASE, KZ_LENT_POST, KZ_LENT_DRAIN };

/* Where an operation begins, in `kind` of KZE_CREATE to KZE_CLOSE: at the top, for a client; below `instance`, whose filter asks for it (InitiatingInstance of FltReadFile and its
 * like), so that those alone hear it that stand lower; at the base, where none hears it, for the file system; at the top for the cache or memory manager, whose handle may be one
 * that its cleanup has begun of, until its close; or at the base for `instance`, whose filter asks for it. An instance's end waits for what its filter asked for. */
enum { KZB_TOP, KZB_BELOW, KZB_BASE, KZB_LATE, KZB_BASE_FOR };

/* The numbers of events. `bytes` are the text, the body or the data that kazdrin_step is passed. */
enum {
    KZE_REGISTER = 1,      /* bytes: the name; pre, post, contexts, query, unload */
    KZE_MOUNT = 2,         /* bytes: the name */
    KZE_SETUP_DONE = 3,    /* worker, flag: whether the instance is attached */
    KZE_CREATE = 4,        /* volume, mode; bytes: the path */
    KZE_LIST = 5,          /* volume */
    KZE_READ = 6,          /* handle, offset, len */
    KZE_WRITE = 7,         /* handle, offset; bytes: the data */
    KZE_QUERY_SIZE = 8,    /* handle */
    KZE_SET_SIZE = 9,      /* handle, offset: the size */
    KZE_FLUSH = 10,        /* handle */
    KZE_SET_DELETE = 11,   /* handle */
    KZE_CLEANUP = 12,      /* handle */
    KZE_CLOSE = 13,        /* handle */
    KZE_RESUME_PRE = 14,   /* worker, operation, and a verdict */
    KZE_RESUME_POST = 15,  /* worker, operation */
    KZE_FIRST_HELD = 16,   /* worker, mode: 0 preoperations, 1 postoperations */
    KZE_COLLECT = 17,      /* operation */
    KZE_ALLOCATE = 18,     /* worker, kind; bytes: the body */
    KZE_SET = 19,          /* worker, slot, generation, mode: 0 keep, 1 replace; flag: whether the old one is wanted */
    KZE_GET = 20,          /* worker, kind */
    KZE_DELETE = 21,       /* worker, kind, flag: whether the old one is wanted */
    KZE_REFERENCE = 22,    /* worker, slot, generation */
    KZE_RELEASE = 23,      /* worker, slot, generation */
    KZE_READ_BODY = 24,    /* worker, slot, generation */
    KZE_WRITE_BODY = 25,   /* worker, slot, generation; bytes: the body */
    KZE_BUMP = 26,         /* worker, slot, generation, offset: the place, number */
    KZE_TAKE_DUE = 27,     /* worker */
    KZE_CLEANED = 28,      /* worker, number */
    KZE_ASK_DETACH = 29,   /* worker, instance */
    KZE_QUERY_RETURNED = 30,    /* worker, flag: whether it may go */
    KZE_START_TEARDOWN = 31,    /* worker, instance */
    KZE_START_RETURNED = 32,    /* worker */
    KZE_DRAIN_TAKE = 33,        /* worker, instance */
    KZE_DRAIN_DONE = 34,        /* worker */
    KZE_COMPLETE_TEARDOWN = 35, /* worker, instance */
    KZE_COMPLETE_RETURNED = 36, /* worker */
    KZE_FINISH = 37,            /* instance */
    KZE_ASK_UNLOAD = 38,        /* worker, filter */
    KZE_UNLOAD_RETURNED = 39,   /* worker, flag: whether it may go */
    KZE_FORCE_UNLOAD = 40,      /* filter */
    KZE_EMPTY_FILTER = 41,      /* filter */
    KZE_FINISH_FILTER = 42,     /* filter */
    KZE_START_DISMOUNT = 43,    /* volume */
    KZE_DROP_HANDLE = 44,       /* volume */
    KZE_EMPTY_VOLUME = 45,      /* volume */
    KZE_FINISH_VOLUME = 46,     /* volume */
    KZE_ENTER_ROUTINE = 47,     /* worker, instance; handle where flag isn't 0 */
    KZE_ROUTINE_RETURNED = 48,  /* worker */
    KZE_RESTORE = 49,           /* handle */
    KZE_OTHER = 50,             /* handle, mode: the major function, by the kit's number; offset: a number that stands for its parameters */
    KZE_ON_VOLUME = 51,         /* volume, mode, offset: the same without a file */
    KZE_CHANGE_HELD = 52        /* worker, operation; kind: the operation's number as KazdrinData has it, with its fields; bytes: its path or data */
};

/* Operations in `pre` and `post` of KZE_REGISTER. */
enum {
    KZ_MASK_CREATE = 1,
    KZ_MASK_READ = 2,
    KZ_MASK_WRITE = 4,
    KZ_MASK_QUERY_SIZE = 8,
    KZ_MASK_SET_SIZE = 16,
    KZ_MASK_FLUSH = 32,
    KZ_MASK_LIST = 64,
    KZ_MASK_SET_DELETE = 128,
    KZ_MASK_CLEANUP = 256,
    KZ_MASK_CLOSE = 512,
    KZ_MASK_RESTORE = 1024
};

/* And those of a major function that KZE_OTHER begins. */
#define KZ_MASK_OTHER(major) (1ull << ((uint8_t)(major) < 28 ? 11 + (uint8_t)(major) : 294 - (uint8_t)(major)))

/* A preoperation's verdict, in `mode`. The first two ask for the postoperation, with `number`, and with the context in slot and generation if `flag` isn't 0.
 * Complete has a status by its number. */
enum { KZV_WITH_CALLBACK, KZV_SYNCHRONIZE, KZV_NO_CALLBACK, KZV_COMPLETE, KZV_PENDING };

/* A postoperation's verdict, in `mode`. */
enum { KZV_FINISHED, KZV_MORE_PROCESSING };

/* What a worker is to do next, in `action`: call the instance's preoperation, have the base called, call the instance's postoperation with its number (and
 * its context, if `has` isn't 0), give it a drain; nothing, ask again; nothing, a filter holds the operation; nothing, it is done. */
enum { KZA_PRE, KZA_BASE, KZA_POST, KZA_DRAIN, KZA_MOVED, KZA_HELD, KZA_DONE };

/* Of what kazdrin_phase tells the phase, in `mode`, and the phases. */
enum { KZP_OF_INSTANCE, KZP_OF_FILTER, KZP_OF_VOLUME };
enum { KZP_INSTANCE_SETUP, KZP_INSTANCE_ATTACHED, KZP_INSTANCE_STOPPING, KZP_INSTANCE_COMPLETING, KZP_INSTANCE_EMPTYING, KZP_INSTANCE_DETACHED };
enum { KZP_FILTER_LOADED, KZP_FILTER_UNLOADING, KZP_FILTER_EMPTIED, KZP_FILTER_NOT_LOADED };
enum { KZP_VOLUME_MOUNTED, KZP_VOLUME_DISMOUNTING, KZP_VOLUME_EMPTIED, KZP_VOLUME_FINISHED };

/* What every call but kazdrin_open and kazdrin_close answers on a handle that is closed. */
#define KZS_CLOSED 35

/* Each answers 0, or the number of the status with which it was refused. */
uint32_t kazdrin_open(Kazdrin *kazdrin);
void kazdrin_close(Kazdrin *kazdrin);
uint32_t kazdrin_step(Kazdrin *kazdrin, const KazdrinEvent *event, const uint8_t *bytes, size_t length, KazdrinTold *told, uint8_t *room, size_t size);
/* worker, filter, volume; a name and an altitude */
uint32_t kazdrin_attach(Kazdrin *kazdrin, const KazdrinEvent *event, const uint8_t *name, size_t length, const uint8_t *altitude, size_t altitude_length,
                        KazdrinTold *told, uint8_t *room, size_t size);
/* worker, operation */
uint32_t kazdrin_next(Kazdrin *kazdrin, const KazdrinEvent *event, KazdrinTold *told);
/* worker, and a verdict */
uint32_t kazdrin_pre_returned(Kazdrin *kazdrin, const KazdrinEvent *event);
uint32_t kazdrin_post_returned(Kazdrin *kazdrin, const KazdrinEvent *event);
/* worker */
uint32_t kazdrin_base(Kazdrin *kazdrin, const KazdrinEvent *event);
/* worker; flag: 0 the bytes that are asked for (a create's path, what is written), else those of the answer so far, and of a call its file's path */
uint32_t kazdrin_lent(Kazdrin *kazdrin, const KazdrinEvent *event, KazdrinData *told, uint8_t *room, size_t size);
/* worker, and other parameters: event is the operation's number as KazdrinData has it, with its fields; bytes: its path or data */
uint32_t kazdrin_change(Kazdrin *kazdrin, const KazdrinEvent *event, const uint8_t *bytes, size_t length);
/* worker, status with number, offset: the information, flag: whether there are bytes */
uint32_t kazdrin_answer(Kazdrin *kazdrin, const KazdrinEvent *event, const uint8_t *bytes, size_t length);
/* worker */
uint32_t kazdrin_counts(Kazdrin *kazdrin, const KazdrinEvent *event, KazdrinCounts *counts);
/* worker, len: the place in its hand; told: slot and generation, if `has` isn't 0 */
uint32_t kazdrin_held_at(Kazdrin *kazdrin, const KazdrinEvent *event, KazdrinTold *told);
/* worker, and an answer as kazdrin_answer has it: the call of the base returns with it, in place of kazdrin_base */
uint32_t kazdrin_based(Kazdrin *kazdrin, const KazdrinEvent *event, const uint8_t *bytes, size_t length);
/* mode: of what; instance, filter or volume; told: number, the phase, if `has` isn't 0 */
uint32_t kazdrin_phase(Kazdrin *kazdrin, const KazdrinEvent *event, KazdrinTold *told);
/* worker, len: the place among what its last callback left in its hand; told: slot and generation, if `has` isn't 0 */
uint32_t kazdrin_left(Kazdrin *kazdrin, const KazdrinEvent *event, KazdrinTold *told);

#endif
