/* Files of a program: requests of its process, through all filters. */
#ifndef KZ_USER_FILE_H
#define KZ_USER_FILE_H

#include "host.h"
#include "core/op.h"
#include "user/program.h"

/* A file by its path, with `/` between its parts; its access is as it is said, with generic bits. 0, or the error, and then no file. */
uint32_t kz_open_path(const char *name, const KzCreate *create, KzFile **file);
/* The same, with the kit's status. */
NTSTATUS kz_open_as(const char *name, const KzCreate *create, KzFile **file);
void kz_close_opened(KzFile *file);
/* What the manager has no operation for. Its bytes are in the client's room. */
NTSTATUS kz_ask_opened(KzFile *file, const KzAsked *asked, KzAnswer *answer);

#endif
