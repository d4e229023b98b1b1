/* What the file system says of its volume, by the kit's classes. */
#ifndef KZ_FILESYSTEM_VOLUMES_H
#define KZ_FILESYSTEM_VOLUMES_H

#include "host.h"

/* How many units of a sector a volume has, and how many are free. */
LONGLONG kz_units(void);
LONGLONG kz_free_units(PFLT_VOLUME volume);
/* Its name by its GUID, without a folder in front. */
void kz_volume_guid(PFLT_VOLUME volume, char *room, size_t size);
/* The volume that a name begins with, and what is behind it; NULL if it begins with none. */
PFLT_VOLUME kz_volume_named(const char *name, const char **rest);
extern const struct KzModule kz_label_module;
NTSTATUS kz_answer_volume(KzOp *op, const FLT_PARAMETERS *now);

#endif
