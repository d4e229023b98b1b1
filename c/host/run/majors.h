/* Requests for what the manager hasn't, in words: names, information, directories, volumes, what a file has beside its bytes, locks, control codes, sections, paging. */
#ifndef KZ_RUN_MAJORS_H
#define KZ_RUN_MAJORS_H

#include "host.h"
#include "run/words.h"

/* Up to one without a name. */
extern const KzRequest kz_major_requests[];
KzReply kz_set_file(uint64_t handle, ULONG class, const void *bytes, size_t length);

#endif
