/* The parameters of an operation that the manager doesn't look into: what goes down, and the room for what comes up, are memory of the operation. */
#ifndef KZ_MANAGER_FILL_H
#define KZ_MANAGER_FILL_H

#include "host.h"

/* Its parameters, in memory of the operation. */
void kz_fill_opaque(KzOp *op, const KzAsked *asked);
/* Whether the system copies nothing of the requestor's own buffers. */
bool kz_is_uncopied(const KzAsked *asked);

#endif
