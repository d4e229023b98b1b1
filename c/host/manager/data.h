/* Callback data: what the manager lends is shown in the kit's structures, and what a callback left in them is put back. */
#ifndef KZ_MANAGER_DATA_H
#define KZ_MANAGER_DATA_H

#include "host.h"
#include "core/op.h"

void kz_show_data(KzOp *op, PFLT_INSTANCE instance);
void kz_check_target(KzOp *op, bool is_dirty);
void kz_show_pre(KzOp *op, PFLT_INSTANCE instance);
void kz_take_pre(KzOp *op, bool has_post, bool is_completed);
/* The same of one that is held, and about to go on. */
void kz_take_held_pre(KzOp *op, bool has_post, KzPut *put);
bool kz_is_touched(KzOp *op);
void kz_free_data(KzOp *op);

#endif
