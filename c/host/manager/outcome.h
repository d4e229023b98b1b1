/* Routines of FltRequestOperationStatusCallback. */
#ifndef KZ_MANAGER_OUTCOME_H
#define KZ_MANAGER_OUTCOME_H

#include "host.h"

/* The file system's call has returned with that status: whoever asked is told, from the lowest up, and once. */
void kz_tell_outcome(KzOp *op, NTSTATUS status);

#endif
