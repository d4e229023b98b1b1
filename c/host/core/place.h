/* Where something happens: the callback that runs, and what is looked at as it returns. */
#ifndef KZ_CORE_PLACE_H
#define KZ_CORE_PLACE_H

#include "host.h"

typedef enum {
    KZ_IN_NOTHING,
    KZ_IN_ENTRY,
    KZ_IN_SETUP,
    KZ_IN_PRE,
    KZ_IN_POST,
    KZ_IN_DRAIN,
    KZ_IN_QUERY,
    KZ_IN_START,
    KZ_IN_COMPLETE,
    KZ_IN_UNLOAD,
    KZ_IN_CLEANUP,
    KZ_IN_WORK,
    KZ_IN_TIMER,
    KZ_IN_THREAD,
    KZ_IN_PORT,
    KZ_IN_CANCEL,
    KZ_IN_NOTIFY,
    KZ_IN_COMPLETION,
    KZ_IN_DISPATCH,
    KZ_IN_NAME
} KzCallback;

/* The callback that runs, with a number of its own. `worker` is that of the manager which is in it. */
typedef struct KzPlace {
    KzCallback callback;
    PFLT_FILTER filter;
    PFLT_INSTANCE instance;
    KzOp *op;
    uint64_t op_id;
    PFLT_CALLBACK_DATA data;
    uint64_t number;
    unsigned depth;
    uint8_t worker;
    uint64_t process;    /* the thread's, as it was called; and its top-level IRP */
    PIRP top_level;
    KIRQL irql, raised;  /* at which it was called, and to which it raised that since */
    uint64_t locks_from; /* the callback whose locks, and those of callbacks after it, count for the IRQL */
    /* The call of the kit that it makes, and where; none while its own code runs. Its function, and what was asked for. */
    const char *call;
    const void *from, *function;
    bool is_in_drivers_place;   /* the call touches the driver's memory as its own code would */
    const void *stack;          /* where that of the driver's code begins; NULL if it isn't looked at */
    const void *callers[2];     /* and in the driver's functions around that */
    const char *answered;       /* the call whose answer is looked at, and where it returns to */
    const void *answered_to;
    const char *request, *path; /* of the client that began the operation, or that asks; NULL if there is none */
    unsigned line;              /* of the request in its file; 0 if it has none */
    UCHAR major;                /* of the operation */
    struct {                    /* callbacks inside one another of the same filter and major function; of this one, and of the one before that isn't the same */
        PFLT_FILTER filter;
        UCHAR major;
        unsigned count;
    } nested[2];
} KzPlace;

/* The call by which the host carries a request out. */
extern const char kz_a_request[];
KzPlace kz_enter(KzCallback callback, uint8_t worker, PFLT_FILTER filter, PFLT_INSTANCE instance, KzOp *op, PFLT_CALLBACK_DATA data);
/* The callback that was entered is called at that IRQL, whatever locks the client holds. */
void kz_call_at(KIRQL irql);
KzPlace kz_enter_again(const KzPlace *place);
void kz_leave(KzPlace before);
/* How many callbacks of its filter, for operations of its major function, are inside one another there. */
unsigned kz_nested(void);
size_t kz_place_text(char *room, size_t size);
/* The line of the driver, the path and the request. What other orders of the same requests change stands between marks. */
size_t kz_source_text(char *room, size_t size, const char *call);

#endif
