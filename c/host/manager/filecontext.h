/* Contexts of files and of transactions: the manager has none, so the host links them and counts their references. */
#ifndef KZ_MANAGER_FILECONTEXT_H
#define KZ_MANAGER_FILECONTEXT_H

#include "host.h"
#include "core/transaction.h"
#include "manager/context.h"

/* The last file object of a file is closed: of no other one whose streams are open. */
void kz_end_file(const KzFile *file);
/* The instance is torn down: its contexts and its enlistments go. */
void kz_end_links_of(PFLT_INSTANCE instance);
void kz_end_member(KzMember **at);
/* The transaction is over. */
void kz_end_transaction_contexts(PKTRANSACTION transaction);
/* One that is to be linked to an object that the manager hasn't. */
NTSTATUS kz_check_context(PFLT_INSTANCE instance, const KzContext *context, FLT_CONTEXT_TYPE type, const char *call);
/* It is a file's no more. */
void kz_unlink_context(KzContext *context);
extern const struct KzModule kz_filecontext_module;

#endif
