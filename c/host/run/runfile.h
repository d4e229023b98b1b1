/* Lines of requests: one, a set-up, those of a file. */
#ifndef KZ_RUN_RUNFILE_H
#define KZ_RUN_RUNFILE_H

#include "host.h"

/* A request, and how it is said where something is told; NULL is as it stands. What is said must stay until the end of the run. */
KzReply kz_request_as(const char *line, const char *asked);
/* Cuts a line into its words: how many there are, of which as many are kept as there is room for, and NULL behind them. */
size_t kz_split(char *line, char **words);
/* The line isn't understood. */
KzReply kz_wrong(void);
/* What a load, an attach or a mount came to. */
void kz_note_refused(uint32_t status);
/* Of a load that names no driver: the one whose name is nearest, or NULL. */
void kz_note_near(const char *name);
/* The requests of a set-up, in order: 0, or a sentence says which one isn't understood (2), or which load, attach or mount is refused with no `expect` behind it (1). */
int kz_set_up(char *const *lines, size_t count);

#endif
