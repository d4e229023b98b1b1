/* What the file system answers a create, by what is there. */
#ifndef KZ_FILESYSTEM_CREATE_H
#define KZ_FILESYSTEM_CREATE_H

#include "host.h"
#include "core/create.h"
#include "filesystem/tree.h"

/* A create whose name is one. True: that is its answer. False: it is about a file's bytes, which whatever keeps them opens or makes. */
bool kz_answers_create(KzOp *op, uint8_t mode, NTSTATUS *status);
/* That was done: the file, or its stream, is there. */
void kz_note_create(KzName *name, uint8_t mode);
/* A create that doesn't say what it opens opens a directory where there is one. */
bool kz_opens_directory(const KzCreate *create, PFLT_VOLUME volume, const char *path);

#endif
