/* What the file system makes of the other operations: extended attributes, security, quotas, locks of bytes, control codes, sections, and what has no file. */
#ifndef KZ_FILESYSTEM_CONTROL_H
#define KZ_FILESYSTEM_CONTROL_H

#include "host.h"

/* Its handle goes: a lock of the volume ends with it. */
void kz_unlock_volume(const KzFile *file);
NTSTATUS kz_answer_other(KzOp *op, const FLT_PARAMETERS *now);

#endif
