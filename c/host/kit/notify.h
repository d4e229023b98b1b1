/* Processes, threads and images begin and end by requests, and by programs: the routines that drivers registered are called then. */
#ifndef KZ_KIT_NOTIFY_H
#define KZ_KIT_NOTIFY_H

#include "host.h"

/* With its first thread, whose number is four behind its own. */
uint32_t kz_begin_process(uint64_t id, uint64_t parent, const char *image, NTSTATUS *other);
uint32_t kz_end_process(uint64_t id);
void kz_thread_begins(uint64_t process, uint64_t thread);
void kz_thread_ends(uint64_t process, uint64_t thread);
/* Of process 0 it is one of the kernel's. */
void kz_image_loads(uint64_t process, const KzFile *file);

#endif
