/* Structures of the kit in a driver's own memory that must be deleted before that goes: lookaside lists and resources. */
#ifndef KZ_CORE_MADE_H
#define KZ_CORE_MADE_H

#include "host.h"

/* Structures of the kit in a driver's own memory. */
void kz_made(const void *at, const char *kind, const char *call, const char *deletes);
bool kz_unmade(const void *at);
bool kz_has_made(const void *at);
/* Whether it is one of those; that it isn't is told. */
bool kz_is_made(const void *at, const char *kind, const char *call);
extern const struct KzModule kz_made_module;

#endif
