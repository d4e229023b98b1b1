/* A script under way above the manager's archive. Lines go in, and each is answered as fltscript answers it. Beside the session stands what fltscript can say and the archive doesn't:
 * which ids were given, where workers are, and what follows from the events that were made: files, references of contexts, operations in flight. */
#ifndef ORDERS_SCRIPT_H
#define ORDERS_SCRIPT_H

#include "orders.h"
#include "wire/status.h"

enum {
    OR_WORKERS = 16,
    OR_BYTES = 1 << 20, /* of an answer */
    OR_LONGEST = 4096   /* of a line */
};
#define OR_NONE UINT64_MAX

typedef enum { OR_IDLE, OR_IN_CALLBACK, OR_IN_PRE, OR_IN_BASE, OR_IN_POST, OR_IN_DRAIN, OR_IN_EARLY_DRAIN, OR_IN_COMPLETE, OR_IN_CLEANUP } OrStage;

typedef struct {
    OrStage stage;
    uint64_t instance, operation, handle; /* OR_NONE where there is none; the handle is a routine's */
    uint64_t context;                     /* that is cleaned up */
} OrPlace;

typedef struct {
    bool has_pre, has_post;
} OrFilter;

typedef struct {
    uint8_t filter, volume;
    char altitude[65];
    uint64_t birth; /* how many had become attached before; OR_NONE in its setup */
    uint64_t flight;
    KazdrinEvent plan;
} OrInstance;

typedef struct {
    uint8_t event, volume;
    bool is_down, is_creating;
    uint64_t handle, stream, born, last; /* the instance visited last, or below which it began */
} OrOperation;

/* An operation is in flight at an instance: a callback of it has or holds it, or it is owed a postoperation. */
typedef struct {
    uint64_t operation, instance;
    bool is_owed;
} OrFlight;

typedef struct {
    uint8_t volume;
    char path[256];
    uint64_t handles, creates;
    bool is_gone;
} OrStream;

typedef struct {
    uint64_t stream;
    bool is_open;
} OrHandle;

typedef enum { OR_LIVE, OR_CLEANING, OR_CLEANED } OrLife;

typedef struct {
    uint32_t slot, generation;
    uint8_t kind, filter;
    uint64_t instance;
    bool is_linked;
    uint64_t object; /* to which it is linked: a number of its kind */
    uint64_t references;
    OrLife life;
} OrContext;

/* A completion under way that carries a context. */
typedef struct {
    uint64_t operation, context;
} OrCarried;

typedef struct {
    Kazdrin session;
    OrPlace places[OR_WORKERS];
    uint64_t volumes, births, calls, failures;
    OR_LIST(OrFilter) filters;
    OR_LIST(OrInstance) instances;
    OR_LIST(OrOperation) operations;
    OR_LIST(OrFlight) flights;
    OR_LIST(OrStream) streams;
    OR_LIST(OrHandle) handles;
    OR_LIST(OrContext) contexts;
    OR_LIST(OrCarried) carried;
    OR_LIST(uint64_t) failing;
    uint8_t *bytes; /* of the last answer */
    char *answer;
    size_t length;
} OrScript;

/* A line as it was read: the event that it asks for, and the ids as they are spelled. */
typedef struct {
    KazdrinEvent event;
    OrText name, altitude, path;
    uint8_t *bytes;
    size_t length;
    uint64_t filter, volume, instance, handle, operation, context, worker;
} OrAsked;

/* script.c */
void or_open(OrScript *script);
void or_close(OrScript *script);
OrText or_run(OrScript *script, OrText line);
void or_say(OrScript *script, const char *format, ...) __attribute__((format(printf, 2, 3)));
void or_say_bytes(OrScript *script, size_t length);
void or_refuse(OrScript *script, uint32_t status, uint64_t number);
/* Makes the event, and ends the program where the manager was refused memory. */
uint32_t or_step(OrScript *script, const OrAsked *asked, KazdrinTold *told);

/* command.c: what the words stand for. Answers the status with which the line is refused, or 0 once it is done. */
uint32_t or_do(OrScript *script, OrText *words, size_t count);

/* turn.c: the ways of operations. */
void or_next(OrScript *script, OrAsked *asked);
void or_pre(OrScript *script, OrAsked *asked);
void or_base(OrScript *script, OrAsked *asked);
void or_post(OrScript *script, OrAsked *asked);
void or_go(OrScript *script, OrAsked *asked);
void or_collect(OrScript *script, OrAsked *asked);

/* note.c: what follows from an event that was made. */
void or_note(OrScript *script, const OrAsked *asked, const KazdrinTold *told);
void or_came_back(OrScript *script, const OrAsked *asked);
void or_note_attached(OrScript *script, const OrAsked *asked, uint64_t instance);

/* files.c */
void or_begun(OrScript *script, const OrAsked *asked, uint64_t operation);
void or_answered(OrScript *script, uint64_t operation, bool is_success);
void or_completed(OrScript *script, uint64_t operation);
void or_dropped(OrScript *script, uint64_t handle);
bool or_is_open(OrScript *script, uint64_t handle);

/* flights.c */
void or_fly(OrScript *script, uint64_t operation, uint64_t instance, bool is_owed);
void or_land(OrScript *script, uint64_t operation, uint64_t instance);
void or_settled(OrScript *script, uint64_t operation, uint64_t instance, uint8_t verdict);
void or_moved(OrScript *script, uint64_t operation);

/* contexts.c */
uint64_t or_context_of(const OrScript *script, uint32_t slot, uint32_t generation);
void or_allocated(OrScript *script, const OrAsked *asked, const KazdrinTold *told);
void or_linked(OrScript *script, const OrAsked *asked);
void or_deleted(OrScript *script, const OrAsked *asked);
void or_swept(OrScript *script);
void or_unlink_of_instance(OrScript *script, uint64_t instance);
void or_unlink_of_filter(OrScript *script, uint64_t filter);
void or_unlink_on_volume(OrScript *script, uint64_t volume);
void or_carry(OrScript *script, uint64_t operation, uint64_t context);
void or_deliver(OrScript *script, uint64_t operation, const KazdrinTold *told);
uint64_t or_held_by(OrScript *script, uint64_t worker, uint64_t context);
uint64_t or_left_by(OrScript *script, uint64_t worker, uint64_t context);
void or_count_references(OrScript *script);
uint64_t or_leaks(OrScript *script);
uint64_t or_phase(OrScript *script, uint64_t instance);

#endif
