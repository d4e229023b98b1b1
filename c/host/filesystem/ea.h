/* Extended attributes of a file. */
#ifndef KZ_FILESYSTEM_EA_H
#define KZ_FILESYSTEM_EA_H

#include "host.h"

NTSTATUS kz_set_ea(KzOp *op, const FLT_PARAMETERS *now);
/* Those that a list names, or the next ones of the handle. */
NTSTATUS kz_query_ea(KzOp *op, const FLT_PARAMETERS *now);

#endif
