/* Calls of the base: to the file system in memory, to a folder of the host machine below volume 0, or answered by what the host keeps beside them. */
#ifndef KZ_MANAGER_BASE_H
#define KZ_MANAGER_BASE_H

#include "host.h"

/* The device may fail, but for a cleanup or a close. False: the file system keeps the operation for a while. */
bool kz_call_base(KzOp *op);
/* What the file system kept goes on. */
void kz_go_on_from_base(KzOp *op, NTSTATUS status);

#endif
