/* Texts that stay until the end of the run: paths and requests, for what is told later. */
#ifndef KZ_CORE_KEPT_H
#define KZ_CORE_KEPT_H

#include "host.h"

/* A text that stays until the end of the run; NULL if there are too many. */
const char *kz_kept_text(const char *text);
extern const struct KzModule kz_kept_module;

#endif
