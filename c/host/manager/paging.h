/* How the file system goes by a stream's pages, and how their reads and writes become operations. */
#ifndef KZ_MANAGER_PAGING_H
#define KZ_MANAGER_PAGING_H

#include "host.h"
#include "core/op.h"
#include "filesystem/store.h"

/* ---- What the cache asks of the manager. */
NTSTATUS kz_page(KzFile *file, const KzPaging *asked, uint64_t *there);
NTSTATUS kz_ask_for_cache(KzFile *file, const KzAsked *asked);

/* ---- What the memory manager does for a view: pages that aren't there are read, and what is written in one is written to the file. False: the file has no pages. */
bool kz_touch(KzFile *file, uint64_t offset, uint8_t *bytes, size_t *length, bool is_written, NTSTATUS *status);

/* ---- What the file system does. */
/* A read or a write that goes by the stream's pages, if there is any of the file where it is. */
bool kz_goes_by_pages(const KzOp *op);
/* A read leaves its bytes in the client's room. */
NTSTATUS kz_call_pages(KzOp *op, const KazdrinData *call, size_t *length);
/* Before a call that goes to the file itself, and after it: pages are written and go, and nobody else is at the stream. */
NTSTATUS kz_begin_uncached(KzOp *op, const KazdrinData *call);
void kz_end_uncached(KzOp *op, const KazdrinData *call);
/* What was written to a file of a volume that doesn't cache is seen in its sections. */
void kz_show_write(const KzOp *op, const KazdrinData *call, const uint8_t *bytes);
/* The same around a control code that writes zeros. */
NTSTATUS kz_begin_control(KzFile *file);
void kz_note_zeros(KzFile *file);

#endif
