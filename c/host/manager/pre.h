/* A preoperation, and what an operation owes an instance after it. */
#ifndef KZ_MANAGER_PRE_H
#define KZ_MANAGER_PRE_H

#include "core/op.h"

void kz_pre(KzOp *op, PFLT_INSTANCE instance);
/* Its verdict, and whether the instance waits still for what it passed. */
KazdrinEvent kz_verdict_of(KzOp *op, PFLT_INSTANCE instance, FLT_PREOP_CALLBACK_STATUS said, PVOID completion);
bool kz_owes(KzOp *op, PFLT_INSTANCE instance, const KazdrinEvent *verdict);
KzOwed *kz_owed_to(KzOp *op, PFLT_INSTANCE instance);
void kz_leave_flight(KzOp *op, PFLT_INSTANCE instance);
FLT_RELATED_OBJECTS kz_objects_of(PFLT_INSTANCE instance, const KzOp *op);
/* What a callback is given of them, up to its return. */
FLT_RELATED_OBJECTS *kz_lend_objects(FLT_RELATED_OBJECTS objects);
void kz_take_objects(FLT_RELATED_OBJECTS *objects);
/* What the file system keeps in a file object is changed by nobody else: that is told, and put back. */
void kz_look_at_file(KzOp *op, const FILE_OBJECT *before);
extern const struct KzModule kz_lent_module;

#endif
