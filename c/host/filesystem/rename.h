/* Renames and hard links: where they lead to, what stands in their way, and what of the names moves. */
#ifndef KZ_FILESYSTEM_RENAME_H
#define KZ_FILESYSTEM_RENAME_H

#include "host.h"
#include "filesystem/tree.h"

/* Where a rename or a link leads to, as the kit's three fields say it; false if that is no name. */
/* The name that a rename gives whose folder was opened: in that folder, by the last part of what its file object says. */
bool kz_name_in_target(const KzFile *folder, char *text, size_t size);
bool kz_destination(const KzFile *file, HANDLE root, const WCHAR *name, ULONG length, char *text, size_t size);
/* The name is that from now on, and what lies below it goes with it. */
void kz_move_to(KzName *from, const char *text);
NTSTATUS kz_rename(KzFile *file, const char *text, bool is_link, ULONG flags);
/* Whether a name may be there: the folder above it is one, and stays; or one that is to be made, since the volume makes those above it. */
NTSTATUS kz_check_above(PFLT_VOLUME volume, const char *text, bool makes);
/* The folders above a name are there. */
void kz_make_above(PFLT_VOLUME volume, const char *text);

#endif
