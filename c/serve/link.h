/* A connection of a client: one request at a time is answered, and the next one is read behind its reply. */
#ifndef KZ_SERVE_LINK_H
#define KZ_SERVE_LINK_H

#include "wire/server.h"

#define LINKS 32
#define HANDLES 4096 /* as many as a manager has at once */

/* A Look opens what is there, asks for its size, and closes it, as three requests do. */
typedef enum { LOOK_OPENS, LOOK_MEASURES, LOOK_CLOSES } LookStep;

typedef struct {
    int socket; /* -1: the place is free */
    bool is_ended; /* nothing more comes */
    bool is_faulted; /* it ends behind what is left to be sent */
    uint8_t in[LONGEST_FRAME], out[LONGEST_FRAME];
    size_t in_length, out_length, out_sent;
    /* The request that is answered now. */
    uint8_t code;
    uint32_t number;
    uint64_t handle;
    bool is_waiting;    /* a filter holds its operation */
    bool is_step_due;   /* its next step comes: the close behind a cleanup, or a step of a Look */
    uint64_t operation;
    LookStep step;
    Looked looked;
    uint8_t status; /* of a Look, with the size */
    uint64_t size;
    uint64_t handles[HANDLES]; /* that it opened */
    size_t handles_count;
} Link;

void link_begin(Link *link, int socket);
/* Whether it may begin a request: nothing is left to be sent, and nothing is held. */
bool link_is_idle(const Link *link);
/* Reads what there is. */
void link_receive(Link *link);
/* The next frame's body, which is there whole; NULL: none is. A length that no frame has is answered, and ends the link. */
const uint8_t *link_frame(Link *link, size_t *length);
/* The frame is done with. */
void link_drop_frame(Link *link, size_t length);
void link_reply(Link *link, uint8_t status, uint64_t information, const uint8_t *bytes, size_t length);
/* Sends what the socket takes. */
void link_send(Link *link);
bool link_has(const Link *link, uint64_t handle);
void link_add(Link *link, uint64_t handle);
void link_forget(Link *link, uint64_t handle);
/* Closes the socket. The handles are still to be closed. */
void link_end(Link *link);

#endif
