/* The bytes of files in memory, by pages: one that was never written is zeros, and takes no room. */
#ifndef KZ_FILESYSTEM_BYTES_H
#define KZ_FILESYSTEM_BYTES_H

#include "host.h"
#include "filesystem/tree.h"

/* Into memory of that length; what was never written, and what lies past the file's end, is zeros. */
void kz_get_bytes(const KzPages *pages, uint64_t offset, uint8_t *to, size_t length);
void kz_put_bytes(KzPages *pages, uint64_t offset, const uint8_t *from, size_t length);
/* What is empty gets the same bytes. */
void kz_copy_pages(KzPages *to, const KzPages *from);
/* What lies from there on is zeros again. */
void kz_cut_bytes(KzPages *pages, uint64_t size);

#endif
