/* A postoperation, and a drain in its place. */
#ifndef KZ_MANAGER_POST_H
#define KZ_MANAGER_POST_H

#include "host.h"

void kz_post(KzOp *op, PFLT_INSTANCE instance, PVOID completion);
void kz_drain(KzOp *op, PFLT_INSTANCE instance, PVOID completion);
bool kz_drain_next(PFLT_INSTANCE instance);

#endif
