/* Who waits for a change in a directory. */
#ifndef KZ_FILESYSTEM_NOTICE_H
#define KZ_FILESYSTEM_NOTICE_H

#include "host.h"
#include "filesystem/tree.h"

extern const struct KzModule kz_notice_module;
NTSTATUS kz_wait_for_change(KzOp *op);
/* What is kept for a handle whose cleanup is over, or for those of a volume that is dismounted, if there is no file. */
void kz_end_notices(const KzFile *file, PFLT_VOLUME volume);
/* Who waits for a change. The actions and filters are the kit's. */
void kz_notify(const KzName *name, ULONG filter, ULONG action);

#endif
