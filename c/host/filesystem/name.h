/* Names, and the files that they stand for. */
#ifndef KZ_FILESYSTEM_NAME_H
#define KZ_FILESYSTEM_NAME_H

#include "host.h"
#include "filesystem/tree.h"

extern const struct KzModule kz_tree_module;
/* If it has more than 255 letters. */
void kz_tell_long_path(const char *text, const char *call);
/* The name, which has one user more; its file may be none yet. NULL if it is no name. */
KzName *kz_take_name(PFLT_VOLUME volume, const char *text);
/* The same for what may be no name: no client finds that one, and the file system refuses what opens it. NULL if it is too long. */
KzName *kz_take_any_name(PFLT_VOLUME volume, const char *text);
void kz_keep_name(KzName *name);
void kz_let_go_name(KzName *name);
/* NULL if no file, no directory and no create under way has it. */
KzName *kz_find_name(PFLT_VOLUME volume, const char *text);
/* In the order of their bytes. */
KzName *kz_first_name(void);
/* In no order. */
KzName *kz_all_names(void);
KzName *kz_add_name(const char *text, KzStream *stream);
/* It is called otherwise from now on. */
void kz_move_name(KzName *name, const char *text);
/* Whether two names of the volume are the same one. */
bool kz_is_same_name(PFLT_VOLUME volume, const char *a, const char *b, size_t length);
/* Whether it lies below that directory, however deep, or is a stream of what does. */
bool kz_is_below(const KzName *name, PFLT_VOLUME volume, const char *directory);
/* Whether its file is there now; a folder of the host machine is asked. */
bool kz_is_there(KzName *name);
/* The name that the file has now, and its path in the manager. */
const char *kz_name_now(const KzFile *file);
const char *kz_key_of(const KzFile *file);

#endif
