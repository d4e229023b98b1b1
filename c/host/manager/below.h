/* Operations that a driver begins itself, or that the host begins for it. */
#ifndef KZ_MANAGER_BELOW_H
#define KZ_MANAGER_BELOW_H

#include "host.h"
#include "core/op.h"
#include "filesystem/store.h"

FLT_CALLBACK_DATA_FLAGS kz_data_flags(const KzOp *op);
/* Who asks, as callbacks see it: the memory manager and a driver are the kernel's. One that is sent down again is its first requestor's. */
KPROCESSOR_MODE kz_requestor_of(const KzOp *op);
KzOp *kz_own_op(PFLT_CALLBACK_DATA data);
extern const KzStore kz_manager_store;
/* Its callback begins operations that come to it again, without an end: that is told. */
bool kz_recurses(const char *call);
/* An operation that a driver begins inside a callback, a work item or a thread of its own. Another worker carries it on, before the call returns. One that a filter holds
 * is waited for, if that is asked for; else, and where nobody lets it go on, the answer says `held`, and `done` is called once it is over. */
KzAnswer kz_below(const KzOwn *own, KzFile *file, KazdrinEvent asked, const void *bytes, size_t length);
/* The same on an open file, by the handle that the manager knows; up to its close it may be used behind its cleanup too. */
KzAnswer kz_below_file(const KzOwn *own, KzFile *file, KazdrinEvent asked, const void *bytes, size_t length);
void kz_close_below(PFLT_INSTANCE initiator, KzFile *file);
void kz_clean_up_below(KzFile *file);
void kz_close_if_due(KzFile *file);
void kz_end_below(KzOp *op);
NTSTATUS kz_status_of(KzAnswer answer);
/* What a call leaves in its caller's block, as the I/O manager does: one that failed, and never pended, leaves it alone. That status. */
NTSTATUS kz_put_status(PIO_STATUS_BLOCK to, NTSTATUS status, ULONG_PTR information);
/* What is answered to a create that a filter cancelled. */
KzReply kz_cancelled(const KzOp *op, NTSTATUS *other);
/* One of a driver's own. What is answered comes into `to`. */
NTSTATUS kz_ask_below(PFLT_INSTANCE initiator, KzFile *file, const KzAsked *asked, void *to, uint64_t *information);
/* On the instance's volume, with no file that anybody opened. */
NTSTATUS kz_ask_volume_below(PFLT_INSTANCE initiator, const KzAsked *asked, void *to, uint64_t *information);

#endif
