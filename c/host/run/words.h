/* Requests in words. */
#ifndef KZ_RUN_WORDS_H
#define KZ_RUN_WORDS_H

#include "host.h"
#include "core/create.h"

/* How many words one has, with its name: at least, and at most; and whether the first behind its name is a handle. `words` has the name first, and NULL behind the last one. */
typedef struct {
    const char *name;
    size_t least, most;
    KzReply (*ask)(char **words);
    bool takes_handle;
} KzRequest;

enum { KZ_WORDS = 15 };

/* The request of that name, and each of them by its place; NULL if there is none. */
const KzRequest *kz_request_of(const char *word);
const KzRequest *kz_request_at(size_t at);
/* A create, whose handle gets the name, if there is one. */
KzReply kz_ask_create(uint8_t volume, const char *path, const KzCreate *create, const char *name);

#endif
