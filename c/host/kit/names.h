/* Names of files and volumes. */
#ifndef KZ_KIT_NAMES_H
#define KZ_KIT_NAMES_H

#include "host.h"

void kz_tell_names(PFLT_FILTER filter);
extern const struct KzModule kz_name_module;

#endif
