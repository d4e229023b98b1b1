/* Directories of a program, and what it asks of a file by its name. */
#ifndef KZ_USER_DIRECTORY_H
#define KZ_USER_DIRECTORY_H

#include "host.h"
#include "user/program.h"

/* Of a handle of FindFirstFile. */
void kz_free_search(KzObject *object);

#endif
