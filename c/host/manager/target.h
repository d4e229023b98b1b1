/* The folder that a rename or a link leads to. */
#ifndef KZ_MANAGER_TARGET_H
#define KZ_MANAGER_TARGET_H

#include "host.h"
#include "core/op.h"

/* Opens it, as the system does first, where the new name says a folder that is there: then what is asked for has it along. */
NTSTATUS kz_put_target(PFLT_INSTANCE initiator, KzFile *file, const KzAsked **asked, KzAsked *with);
/* The rename is over. */
void kz_close_target(PFLT_INSTANCE initiator, KzFile *folder);

#endif
