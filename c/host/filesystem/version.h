/* What a transaction changes: a file is as its changes have it for who is in it, and as it was committed last for all others. */
#ifndef KZ_FILESYSTEM_VERSION_H
#define KZ_FILESYSTEM_VERSION_H

#include "host.h"
#include "core/create.h"
#include "core/transaction.h"
#include "filesystem/tree.h"

/* What a stream and its file are for somebody. */
typedef struct {
    LONGLONG created, accessed, written, changed;
    ULONG attributes;
    uint64_t size, allocation;
    const KzPages *pages;
} KzFacts;

extern const struct KzModule kz_version_module;
/* NULL if one that is active has that name; the empty one is of many. */
PKTRANSACTION kz_begin_transaction(const char *name);
/* One that is active; NULL if none has that name. */
PKTRANSACTION kz_transaction_named(const char *name);
/* Whether it is one, over or not. */
bool kz_is_transaction(const struct _KTRANSACTION *one);
/* Where its enlistment is, or would be; and a transaction in which it has one, NULL if none. */
KzMember **kz_member_of(PKTRANSACTION transaction, PFLT_INSTANCE instance);
PKTRANSACTION kz_transaction_of(PFLT_INSTANCE instance);
/* As who is in that transaction sees it; NULL: who is in none. */
const KzBeside *kz_beside_of(const KzRecord *record, const struct _KTRANSACTION *from);
KzFacts kz_facts_of(const KzStream *stream, const struct _KTRANSACTION *from);
/* The file's stream, or what was committed of it last if another transaction changes it. */
KzStream *kz_seen_stream(const KzFile *file);
/* Whether its name leads nowhere for who is in that transaction: another one has made it, or that one has deleted it. */
bool kz_is_hidden(const KzName *name, const struct _KTRANSACTION *from);
/* Whether the mark that it has is one for who is in that transaction. */
bool kz_is_marked_for(const KzName *name, const struct _KTRANSACTION *from);
/* What stands against a create: another transaction that changes the file, or a writer that is in none. */
NTSTATUS kz_check_version(const KzFile *file, const KzCreate *create, bool is_made);
/* That create has opened the file: what it was is kept, if its transaction changes it from now on. */
void kz_begin_version(KzFile *file, const KzCreate *create, bool was_there, bool had_file);
/* The cleanup of a handle: a file that its transaction changes goes with the commit alone. */
bool kz_puts_off_deletion(const KzFile *file);
/* Its changes stay, or each file is as it was. */
void kz_end_versions(PKTRANSACTION transaction, bool is_committed);

#endif
