/* The journal of a volume's changes. */
#ifndef KZ_FILESYSTEM_JOURNAL_H
#define KZ_FILESYSTEM_JOURNAL_H

#include "host.h"
#include "filesystem/tree.h"

extern const struct KzModule kz_journal_module;
/* The file of that name, or a stream of it, has changed so: USN_REASON_... of a file's own bytes. */
void kz_journal(const KzName *name, ULONG reason);
/* So much of it is written, which had that size before. */
void kz_journal_write(const KzName *name, uint64_t offset, size_t length, uint64_t size);
/* The same of a name that is new or gone, or of what else a file has; and who waits for such changes hears of it. */
void kz_changed(const KzName *name, ULONG filter, ULONG action);
/* Its last handle is closed. */
void kz_write_close_record(const KzName *name); /* also of what hasn't changed */
void kz_journal_close(const KzName *name);
/* Its record, as it stands by itself. Its length. */
size_t kz_journal_record(const KzName *name, uint8_t *to);
/* Of what is older than so many bytes it has no record any more. */
void kz_bound_journal(uint64_t size);
/* FSCTL_QUERY_USN_JOURNAL, and FSCTL_READ_USN_JOURNAL. */
void kz_query_journal(PFLT_VOLUME volume, USN_JOURNAL_DATA_V0 *to);
NTSTATUS kz_read_journal(PFLT_VOLUME volume, const READ_USN_JOURNAL_DATA_V0 *asked, uint8_t *to, size_t room, size_t *length);
/* FSCTL_ENUM_USN_DATA. */
NTSTATUS kz_list_records(PFLT_VOLUME volume, const MFT_ENUM_DATA_V0 *asked, uint8_t *to, size_t room, size_t *length);

#endif
