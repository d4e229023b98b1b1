/* Operations of major functions that the manager doesn't look into. Who hears them, in which order, and which parameters each sees is the manager's, to whom a number stands for the
 * parameters; what these say, and what the file system answers, is the host's. */
#ifndef KZ_MANAGER_OPAQUE_H
#define KZ_MANAGER_OPAQUE_H

#include "host.h"
#include "core/op.h"

/* The event by which one begins: on the handle of `on`, or on its volume. */
KazdrinEvent kz_opaque_event(const KzAsked *asked, KazdrinEvent on);
void kz_begin_opaque(KzOp *op, const KzAsked *asked);
void kz_free_opaque(KzOp *op);
void kz_show_opaque(KzOp *op, PFLT_INSTANCE instance, bool is_post);
void kz_take_opaque_pre(KzOp *op, bool has_post, bool is_completed, KzPut *put);
void kz_take_opaque_post(KzOp *op);
void kz_serve_opaque(KzOp *op);
/* An instance that is to be drained frees its buffer: those below go on with one of the operation's own, with the same in it. */
void kz_forget_opaque_swap(KzOp *op, PFLT_INSTANCE instance);
NTSTATUS kz_answer_opaque(KzOp *op);

#endif
