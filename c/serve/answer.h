/* What the host answers to each request of a link. */
#ifndef KZ_SERVE_ANSWER_H
#define KZ_SERVE_ANSWER_H

#include "link.h"

/* The links that there are: who waits for an operation is among them. */
void answer_begin(Link *links, size_t count);
/* Answers a frame, now or once a filter lets go of it. True: it is a Stop. */
bool answer_frame(Link *link, const uint8_t *body, size_t length);
/* Closes behind cleanups that were held, and the steps of Looks. */
void answer_due_steps(void);
/* Prints how many requests there were, and what is there now. */
void answer_tell_counts(void);
/* The lazy writer's turn. */
void answer_lazily(void);
/* The link has ended: its handles are closed. */
void answer_end(Link *link);
/* Tries again to close what couldn't be. */
void answer_leftovers(void);

#endif
