/* Reparse points: a tag of a file, and the bytes that its owner keeps with it. */
#ifndef KZ_FILESYSTEM_TAG_H
#define KZ_FILESYSTEM_TAG_H

#include "host.h"
#include "filesystem/tree.h"

/* The tag; 0 if the file has none. */
ULONG kz_tag_of(const KzRecord *record);
/* Whether a create comes upon a tag, on its way or at its end: its answer is STATUS_REPARSE then, and the operation has the tag's data. */
bool kz_meets_tag(KzOp *op, uint8_t mode);
/* Where the system goes on by itself, with a link or a mount point: the name, as a driver would write it. False: another tag, which nobody took. */
bool kz_target_of(const KzOp *op, char *name, size_t size);
/* The control codes of reparse points. */
NTSTATUS kz_control_tag(KzOp *op, const FLT_PARAMETERS *now);
bool kz_is_tag_control(ULONG code);

#endif
