/* Major functions: their names, and those of the manager's own operations. */
#ifndef KZ_CORE_MAJOR_H
#define KZ_CORE_MAJOR_H

#include "host.h"

/* Also of a fast one, or of the manager's own operations, as drivers see it. */
UCHAR kz_major_of(const KzOp *op);

#endif
