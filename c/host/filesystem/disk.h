/* What lies below volume 0: a folder of the host machine in place of the file system in memory, if a test named one. */
#ifndef KZ_FILESYSTEM_DISK_H
#define KZ_FILESYSTEM_DISK_H

#include "host.h"
#include "filesystem/folder.h"
#include "filesystem/tree.h"

/* Of a folder of the host machine; false if the volume is in memory, and nothing was asked. */
bool kz_look_in_folder(uint8_t volume, const char *name, KzFound *found);
/* Its names are those of the tree from now on. */
void kz_enter_folder(PFLT_VOLUME volume, const char *name);
/* In memory these succeed. */
NTSTATUS kz_rename_in_folder(uint8_t volume, const char *from, const char *to, bool is_link, bool replaces);
/* The name is about to go to another file while this one is open: whether its bytes are kept until the last handle goes. */
bool kz_hold_in_folder(const KzName *name);
void kz_forget_orphan(KzStream *stream);
NTSTATUS kz_make_in_folder(uint8_t volume, const char *name);
bool kz_is_in_folder(uint8_t volume);
/* A call of the base about its file's bytes, or about the folder's names. */
KzFolderAnswer kz_call_in_folder(const KzFile *file, const KazdrinData *call, const uint8_t *bytes);
/* A status of the manager's. */
uint8_t kz_unlink_in_folder(uint8_t volume, const char *name);

#endif
