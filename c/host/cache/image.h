/* Images: files of which a process has a section to be executed. */
#ifndef KZ_CACHE_IMAGE_H
#define KZ_CACHE_IMAGE_H

#include "host.h"
#include "filesystem/tree.h"

/* What was changed of the file is written, its first page is read, and it is mapped until the process ends; the kernel's (0) stay. */
NTSTATUS kz_map_image(KzFile *file, uint64_t process);
void kz_end_images(uint64_t process);
extern const struct KzModule kz_image_module;

#endif
