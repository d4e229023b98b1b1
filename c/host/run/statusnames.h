/* The kit's statuses by their names: those of ntstatus.h, as the Makefile lists them. */
#ifndef KZ_RUN_STATUSNAMES_H
#define KZ_RUN_STATUSNAMES_H

#include "host.h"

/* statusnames.c; -1: it is none. */
int64_t kz_status_named(const char *name);
const char *kz_status_name(uint32_t status);
/* The name that is nearest to a word, which may lack its beginning; NULL if none is near. */
const char *kz_nearest_status(const char *word);

#endif
