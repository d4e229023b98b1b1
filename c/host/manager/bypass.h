/* Reads that go by a handle straight to the disk: no filter hears of them. */
#ifndef KZ_MANAGER_BYPASS_H
#define KZ_MANAGER_BYPASS_H

#include "host.h"

bool kz_is_bypassed(const KzFile *file, const KazdrinEvent *asked);
/* FSCTL_MANAGE_BYPASS_IO as it comes to the file system. */
bool kz_manages_bypass(KzOp *op, NTSTATUS *status);
/* Why it isn't had, in the answer of a request for it. */
void kz_put_bypass(FS_BPIO_OUTPUT *answer, FS_BPIO_OPERATIONS operation, NTSTATUS status, PFLT_FILTER by, const WCHAR *reason, size_t letters);

#endif
