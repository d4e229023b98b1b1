/* The sectors of a volume, by a handle of the volume itself. */
#ifndef KZ_FILESYSTEM_SECTORS_H
#define KZ_FILESYSTEM_SECTORS_H

#include "host.h"

extern const struct KzModule kz_sector_module;
/* A read into those bytes, or a write of them: how many there are. */
NTSTATUS kz_call_sectors(const KzFile *file, const KazdrinData *call, uint8_t *bytes, size_t *length);

#endif
