/* Sections of files, and their views, as a program has them. */
#ifndef KZ_USER_MAPPING_H
#define KZ_USER_MAPPING_H

#include "host.h"
#include "user/program.h"

void kz_close_section(KzObject *section);

#endif
