/* What is wrong with a line that is no request: there is none of its first word, or too few or too many words stand behind that. */
#ifndef KZ_RUN_LINE_H
#define KZ_RUN_LINE_H

#include "host.h"

/* Whether a line is a request, an expectation or silent; else why not, behind a colon. What its words stand for isn't looked at. */
bool kz_is_request(const char *line, char *why, size_t size);
/* The name by which a request's handle is asked for, or that which a create gives its own; false if there is none. */
bool kz_takes_name(const char *request, char *name, size_t size);
bool kz_gives_name(const char *request, char *name, size_t size);

#endif
