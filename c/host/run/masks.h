/* What a create asks for, in words: `access A`, `share N`, `options O`, `attributes N`, each by the kit's names with `|` between them, or by numbers. */
#ifndef KZ_RUN_MASKS_H
#define KZ_RUN_MASKS_H

#include "host.h"
#include "core/create.h"

/* That of a handle of a process or a thread. */
bool kz_read_process_access(const char *word, ULONG *access);
/* The disposition of a mode's word; false if it is none. */
bool kz_read_mode(const char *word, ULONG *disposition);
/* The pairs of words behind a path, up to NULL, and the name that the handle gets, or NULL; false if one isn't understood, or comes twice. */
bool kz_read_create(char **words, KzCreate *create, const char **name);

#endif
