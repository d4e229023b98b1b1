/* Control codes that ask for a file's bytes, its object ID, its journal's record, or what its volume is made of. */
#ifndef KZ_FILESYSTEM_FSCTL_H
#define KZ_FILESYSTEM_FSCTL_H

#include "host.h"

NTSTATUS kz_control_file(KzOp *op, const FLT_PARAMETERS *now);

#endif
