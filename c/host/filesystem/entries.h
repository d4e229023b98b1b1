/* The entries of a directory, by the kit's classes. */
#ifndef KZ_FILESYSTEM_ENTRIES_H
#define KZ_FILESYSTEM_ENTRIES_H

#include "host.h"

NTSTATUS kz_answer_directory(KzOp *op, const FLT_PARAMETERS *now);

#endif
