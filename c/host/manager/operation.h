/* Operations: each from its beginning to its reply, with all callbacks in between. */
#ifndef KZ_MANAGER_OPERATION_H
#define KZ_MANAGER_OPERATION_H

#include "host.h"

bool kz_is_held(const KzOp *op);
/* A callback may hold it: it is an IRP, and no fast or FSFilter call. */
bool kz_may_be_held(const KzOp *op);
FLT_RELATED_OBJECTS kz_objects(PFLT_INSTANCE instance, KzFile *file);
/* NULL if it is none that is under way. */
KzOp *kz_op_of(uint64_t id);
KzOp *kz_op_with(PFLT_CALLBACK_DATA data);
void kz_tell_held(void);
void kz_leave_ops(const KzClient *client); /* nobody waits any more for those that it carries on */
extern const struct KzModule kz_operation_module;
KzOp *kz_new_op(uint64_t id, KazdrinEvent asked, KzFile *file, PFLT_VOLUME volume);
void kz_forget_op(KzOp *op);
bool kz_carry_to_end(KzOp *op); /* false: a filter holds it, or the file system keeps it */
bool kz_carry(KzOp *op);
/* What the client does next is the operation's alone, or what is said: so it is of a program's own read, write, flush, query or create, while nobody else has to do with it. Of another one it may be everything. */
void kz_goes_alone(const KzOp *op);
/* Whether an operation waits in the file system that owes the instance something. */
bool kz_has_waiting(PFLT_INSTANCE instance);

#endif
