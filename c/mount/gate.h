/* The gate of a name. A create that is under way at the last close of a deleted file takes the deletion with it. So creates of a name go side by side, and a close that
 * may delete goes alone. Who comes in has its connection already: nobody in there waits for one. */
#ifndef KZ_MOUNT_GATE_H
#define KZ_MOUNT_GATE_H

#include "wait.h"

#define GATES 1024

/* What a request is about: a name, a file's bytes, its flush, or its size. */
typedef enum { NAMES, BYTES, FLUSHES, SIZES, MATTERS } Matter;

/* One gate, of all names that fall together. */
typedef struct {
    unsigned creates; /* inside */
    unsigned waiting; /* closes that wait: creates that come now wait behind them */
    bool is_closing;
    unsigned abandoned[MATTERS]; /* requests that nobody waits for any more, and that the server still holds */
} Gate;

/* All threads share them, under the mutex. */
typedef struct {
    pthread_mutex_t mutex;
    pthread_cond_t left;
    Gate gates[GATES];
} Gates;

typedef enum { AT_NO_GATE, BESIDE_CREATES, ALONE } Passage;

/* Where somebody is inside. */
typedef struct {
    unsigned number;
    Passage passage;
} Inside;

void gates_open(Gates *gates);
unsigned gate_of(const char *path);
/* AT_NO_GATE where nobody wants it any more */
Inside gate_enter(Gates *gates, unsigned number, Passage passage, IsUnwanted is_unwanted, void *whom);
void gate_leave(Gates *gates, Inside *inside);
/* One more such request was abandoned, or one less is there. */
void gate_abandon(Gates *gates, unsigned number, Matter matter, bool is_one_more);
/* Whether such a request is there. */
bool gate_has_abandoned(Gates *gates, unsigned number, Matter matter);
/* Whether a request would wait: for a name behind a close, and behind abandoned ones of its matter where it goes alone or connections are scarce. */
bool gate_is_barred(Gates *gates, unsigned number, Matter matter, Passage passage, bool is_scarce);
/* Waits for a tick, or until somebody leaves. */
void gate_wait(Gates *gates);
void gates_close(Gates *gates);

#endif
