/* What a create makes of a file, beside its bytes: share access, attributes, extended attributes, what its file object may do. */
#ifndef KZ_FILESYSTEM_SHARING_H
#define KZ_FILESYSTEM_SHARING_H

#include "host.h"
#include "core/create.h"

/* Whether those that have the file open share it with a create, and it with them. */
bool kz_may_share_file(KzFile *file, const KzCreate *create);
/* A create empties the file that it opens, or replaces it. */
bool kz_is_emptied(const KzCreate *create);
/* It was opened, and was there before or wasn't; of a stream the file was or wasn't. */
void kz_note_opened(KzOp *op, bool was_there, bool had_file);
/* No other looks at its sharing any more. */
void kz_stop_sharing(KzFile *file);

#endif
