/* A create that a filter answers with STATUS_REPARSE begins anew, from the top, under the name that the filter put into its file object. */
#ifndef KZ_MANAGER_REPARSE_H
#define KZ_MANAGER_REPARSE_H

#include "host.h"
#include "core/op.h"

/* Begins a create, and its answer. Of an answer STATUS_REPARSE the create that comes in its place is begun, and so on. */
typedef KzAnswer KzBeginCreate(void *given, KazdrinEvent asked, const char *path);

/* The answer of what never began. */
KzAnswer kz_refused(NTSTATUS status);
KzAnswer kz_follow(KzAnswer answer, void *given, KzBeginCreate *begin);
/* What its answer counts as: STATUS_REPARSE, or that nobody took the tag that it came upon. */
NTSTATUS kz_note_reparse(const KzOp *op);

#endif
