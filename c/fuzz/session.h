/* Random requests for the drivers that are linked with it, drawn from what the caller has: a seed, or the bytes of a fuzzer. */
#ifndef KZ_FUZZ_SESSION_H
#define KZ_FUZZ_SESSION_H

#include "kzflt.h"

enum { REQUESTS = 120, LINE = 200 };

extern const KzDriver kz_drivers[];
extern const size_t kz_drivers_count;

/* A number below the limit, which is above 0. */
typedef unsigned Draw(unsigned limit);

/* The loads and attachments with which each session begins: how many lines they are. */
size_t session_begin(char lines[REQUESTS][LINE]);
/* One more request. */
void session_request(char *line, Draw *draw);
/* Writes the requests to a file: 0 or 3. */
int session_write(const char *path, const char *const *requests, size_t count);

#endif
