/* What the file system is told of a file, by the kit's classes. */
#ifndef KZ_FILESYSTEM_SET_H
#define KZ_FILESYSTEM_SET_H

#include "host.h"

NTSTATUS kz_answer_query(KzOp *op, const FLT_PARAMETERS *now);
NTSTATUS kz_answer_set(KzOp *op, const FLT_PARAMETERS *now);

#endif
