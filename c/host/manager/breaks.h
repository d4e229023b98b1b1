/* Operations that an oplock is in the way of, until its break is over. */
#ifndef KZ_MANAGER_BREAKS_H
#define KZ_MANAGER_BREAKS_H

#include "host.h"
#include "core/client.h"

/* The file system keeps it: whoever ends that carries it on. */
void kz_keep_waiting(KzOp *op);
/* The same until the break is over, if nobody waits for the operation in its own thread. */
bool kz_waits_apart(KzOp *op);
/* The thread that breaks an oplock waits; false: nobody ends that, which is told. */
bool kz_let_break_end(KzCan *is_over, void *what, const char *path);
/* Else that thread waits; false: nobody ends the break, which is told. */
bool kz_has_break_ended(KzOp *op);

#endif
