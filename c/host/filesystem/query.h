/* What the file system knows of a file, by the kit's classes. */
#ifndef KZ_FILESYSTEM_QUERY_H
#define KZ_FILESYSTEM_QUERY_H

#include "host.h"
#include "filesystem/tree.h"

/* A buffer for an answer, and how much of it is used. */
typedef struct {
    uint8_t *bytes;
    size_t size;
    uint64_t *used;
} KzRoom;

NTSTATUS kz_put_answer(const KzRoom *room, const void *bytes, size_t size, size_t least);
NTSTATUS kz_query_file(const KzFile *file, int class, const KzRoom *room);
void kz_show_standard(const KzFile *file, FILE_STANDARD_INFORMATION *to);
void kz_show_size(const KzFile *file, uint64_t size, FILE_STANDARD_INFORMATION *to);
/* As who is in that transaction sees it. */
void kz_show_network(const KzStream *stream, PKTRANSACTION from, FILE_NETWORK_OPEN_INFORMATION *to);
uint64_t kz_allocation_of(const KzStream *stream);

#endif
