/* Sections of a file for a scan: views of the stream's own pages. */
#ifndef KZ_KIT_SECTION_H
#define KZ_KIT_SECTION_H

#include "host.h"
#include "cache/cache.h"

/* What a handle's section is of; NULL: it is no such handle. */
const KzArea *kz_area_of(HANDLE handle);
bool kz_is_section(PVOID object);
/* Whether one has what lies past that size, of the stream with these pointers. */
bool kz_has_section_past(const SECTION_OBJECT_POINTERS *sections, uint64_t size);
extern const struct KzModule kz_section_module;

#endif
