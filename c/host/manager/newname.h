/* A create whose file object gets another name in a preoperation that lets it go on. */
#ifndef KZ_MANAGER_NEWNAME_H
#define KZ_MANAGER_NEWNAME_H

#include "host.h"

/* Behind a preoperation of the instance: from there on the file of the new name is opened, if it put one there. */
void kz_take_new_name(KzOp *op, PFLT_INSTANCE instance);

#endif
