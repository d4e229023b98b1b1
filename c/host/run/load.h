/* A load: threads that carry out the clients of a scenario again and again, for so many seconds, and one for work items. */
#ifndef KZ_RUN_LOAD_H
#define KZ_RUN_LOAD_H

#include "host.h"

/* A request of a scenario: $ in it is the handle of the client's last create. */
KzReply kz_scripted_request(const char *line, uint64_t *handle);

#endif
