/* The buffers that an operation's answer comes into: those that each instance on the way down received, and those that it put in their place. */
#ifndef KZ_MANAGER_BUFFER_H
#define KZ_MANAGER_BUFFER_H

#include "host.h"

PVOID *kz_buffer_in(KzOp *op, FLT_PARAMETERS *parameters, PMDL **mdl, ULONG **length);
bool kz_has_buffer(const KzOp *op);
bool kz_has_visits(const KzOp *op);
PMDL kz_description_of(KzOp *op, PVOID buffer, size_t length);
void kz_visit(KzOp *op, PFLT_INSTANCE instance);
void kz_leave_visit(KzOp *op);
void kz_forget_swap(KzOp *op, PFLT_INSTANCE instance);
void kz_keep_mdl(KzOp *op, PMDL mdl);
void kz_tell_old_mdl(PMDL mdl);
void kz_note_swap(KzOp *op, bool has_post);

#endif
