/* Creates: what they ask for, as callbacks see and change it. */
#ifndef KZ_MANAGER_DISPOSITION_H
#define KZ_MANAGER_DISPOSITION_H

#include "host.h"
#include "core/op.h"

/* What a request asks for that says nothing but how the file is to be opened: everything, shared with everybody. */
KzCreate kz_usual_create(ULONG disposition, bool is_directory);
/* The manager's number of a disposition, and a disposition for it. */
uint8_t kz_mode_of(ULONG disposition);
ULONG kz_disposition_of(uint8_t mode);
/* Its generic bits stand for others. */
ACCESS_MASK kz_map_access(ACCESS_MASK access);
/* What the system refuses before any filter hears of it: the access is as it was said, with its generic bits. */
NTSTATUS kz_check_create(const KzCreate *create);
void kz_begin_create(KzOp *op, const KzCreate *asked);
void kz_show_create(KzOp *op, FLT_PARAMETERS *shown);
/* It came upon a reparse point: its callbacks on the way up see the tag. */
void kz_show_tag(KzOp *op);
/* What the callback left in them; false if it is nothing that a create may ask for. */
bool kz_take_create(KzOp *op);
/* Whether a handle with that access lets its user make the operation. */
/* Where a write by that handle is: one that may append and not write has all at the end. */
uint64_t kz_offset_by(const KzFile *file, LONGLONG said);
bool kz_is_granted(const KzFile *file, const KazdrinEvent *asked, const KzAsked *opaque);

#endif
