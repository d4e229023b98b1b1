/* What the file system asks of the layer above it. */
#ifndef KZ_FILESYSTEM_STORE_H
#define KZ_FILESYSTEM_STORE_H

#include "host.h"

typedef struct {
    bool is_write;
    uint64_t offset;
    const uint8_t *bytes;
    uint32_t length;
    ULONG flags;
} KzPaging;

typedef struct KzStore {
    /* An operation that waited in the file system is answered, and goes on. */
    void (*go_on)(KzOp *op, NTSTATUS status);
    /* Paging I/O of a file object, from the top of the stack and after its cleanup too: what is read lies in the client's room. */
    NTSTATUS (*page)(KzFile *file, const KzPaging *asked, uint64_t *there);
    NTSTATUS (*ask)(KzFile *file, const KzAsked *asked);
    /* The next operation that was let go on is carried on; false: there is none. */
    bool (*resume)(void);
} KzStore;

#endif
