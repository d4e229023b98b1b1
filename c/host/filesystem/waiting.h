/* Operations that wait in the file system: for a change in a directory, or for a lock. */
#ifndef KZ_FILESYSTEM_WAITING_H
#define KZ_FILESYSTEM_WAITING_H

#include "host.h"

extern const struct KzModule kz_waiting_module;
/* It waits from now on: STATUS_PENDING. */
NTSTATUS kz_wait_in_file_system(KzOp *op);
/* Whether the one of that number waits still. It may be gone: then another one may be at its place. */
bool kz_still_waits(const KzOp *op, uint64_t number);
/* It is over with that status, and goes on as soon as somebody comes to it. */
void kz_make_due(KzOp *op, NTSTATUS status);
/* The first one that waits for changes by that handle; NULL: none does. */
KzOp *kz_first_waiting(const KzFile *file);
/* Of a file whose cleanup is over, or of a volume that is dismounted, if there is no file. */
void kz_end_waiting(const KzFile *file, PFLT_VOLUME volume);
/* One that was asked to be cancelled; false: it doesn't wait here. */
bool kz_cancel_waiting(KzOp *op);
bool kz_has_due(void);
/* The next one that is due goes on; false if none is. */
bool kz_run_waiting(void);

#endif
