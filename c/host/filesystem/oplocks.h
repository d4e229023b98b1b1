/* The oplocks of streams: the control codes that ask for one, and what of the other operations one is in the way of. */
#ifndef KZ_FILESYSTEM_OPLOCKS_H
#define KZ_FILESYSTEM_OPLOCKS_H

#include "host.h"
#include "filesystem/tree.h"
#include "oplock/oplock.h"

extern const struct KzModule kz_oplocks_module;
KzOplockSide kz_oplock_side(const KzOp *op);
/* The key that a create says is its handle's. */
void kz_take_oplock_key(KzOp *op);
/* What the operation does, as far as oplocks look at it, with these parameters if the manager doesn't know them; of a create that opens what is there. */
KzOplockUse kz_oplock_use(const KzOp *op, const FLT_PARAMETERS *now);
/* STATUS_PENDING: it waits in the file system, or for a break (`breaks.of` of the operation). */
NTSTATUS kz_control_oplock(KzOp *op, const FLT_PARAMETERS *now);
/* A create of what is there, beside those that have it open: sharing, and oplocks before it and behind it. STATUS_PENDING: it waits for a break. */
NTSTATUS kz_open_beside(KzOp *op);
/* Another operation; true: it waits for a break. */
bool kz_meets_oplock(KzOp *op);
/* A name in that folder is new, gone or another one. */
void kz_folder_changed(const KzName *name);
/* Its break is waited for from now on. Apart: the operation is due as soon as it may come again. */
void kz_wait_for_break(KzOp *op, bool is_apart);
void kz_wait_no_more_for_break(KzOp *op);
/* Whether that handle has the oplock whose break it waits for. */
bool kz_is_break_of(const KzOp *op, const KzFile *file);
/* Of a handle whose cleanup is over, or of a volume that is dismounted, if there is no file. */
void kz_end_oplocks(const KzFile *file, PFLT_VOLUME volume);
/* It is cancelled, and its oplock is given up; false: it stands for none. */
bool kz_cancel_oplock_of(KzOp *op);

#endif
