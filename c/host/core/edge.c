/* Memory that ends with a page, and the page behind it is shut: what a program gave, names, messages. Who goes past its end is told at that line, and not as the callback returns.
 * Most of it is small and doesn't live long: so its pages are kept for the next one. */
#define _GNU_SOURCE
#include "core/edge.h"

#include "core/access.h"
#include "core/client.h"
#include "core/module.h"
#include "core/told.h"

#include <sys/mman.h>

enum { PAGE = 4096, KEPT = 64, FEW = 16 };

/* There under the thread sanitizer alone. It takes pages that are used again for memory that two threads share, and forgets those that are unmapped. */
extern void __tsan_acquire(void *at) __attribute__((weak));

struct KzEdgeState {
    void *kept[KEPT]; /* each one page, and a shut one behind it */
    unsigned count;
};

void *kz_take_edge(size_t size)
{
    void *pages = size == PAGE && kz.edge->count ? kz.edge->kept[--kz.edge->count] : NULL;
    if (pages)
        return mprotect(pages, PAGE, PROT_READ | PROT_WRITE) == 0 ? pages : NULL;
    pages = mmap(NULL, size + PAGE, PROT_READ | PROT_WRITE, MAP_PRIVATE | MAP_ANONYMOUS, -1, 0);
    if (pages == MAP_FAILED)
        return NULL;
    if (mprotect((uint8_t *)pages + size, PAGE, PROT_NONE) == 0)
        return pages;
    munmap(pages, size + PAGE);
    return NULL;
}

void kz_give_edge(void *pages, size_t size, bool is_open)
{
    if (size == PAGE && !is_open && !__tsan_acquire && kz.edge->count < KEPT)
        kz.edge->kept[kz.edge->count++] = pages;
    else
        munmap(pages, size + PAGE);
}

static KzPiece *piece_before(const void *address)
{
    KzPiece *piece = kz_first_piece();
    while (piece && (!piece->has_edge || (uintptr_t)address - (uintptr_t)(piece->pages + piece->pages_size) >= PAGE))
        piece = kz_next_piece(piece);
    return piece;
}

/* In the driver's own code, or in a call that it makes: the host itself goes past no end. */
bool kz_touched_edge(const void *address, const void *code, const void *caller, bool is_written)
{
    KZ_INSIDE_UNSAID();
    KzPiece *piece = piece_before(address);
    if (!piece)
        return false;
    const void *from = kz_depth > 0 ? NULL : kz_drivers_code(code, caller);
    if (kz_depth == 0 || (kz_me->place.filter && kz_me->place.from))
        kz_tell_past(piece, true, is_written, from);
    piece->is_edge_open = true;
    mprotect(piece->pages + piece->pages_size, PAGE, is_written ? PROT_READ | PROT_WRITE : PROT_READ);
    return true;
}

/* What lies behind it has bytes of one value: so most reads are looked at no further. */
void kz_look_past(const void *address, size_t size, const void *from)
{
    uintptr_t start = (uintptr_t)address, end = start + size;
    if (size < FEW && ((const uint8_t *)address)[size - 1] != KZ_ZONE_BYTE)
        return;
    for (KzPiece *piece = kz_first_piece(); piece; piece = kz_next_piece(piece)) {
        uintptr_t body = (uintptr_t)piece->body, past = body + piece->size;
        if (!kz_ends_with_page(piece->kind) || start < body || start > past || end <= past)
            continue;
        KZ_INSIDE_UNSAID();
        kz_tell_past(piece, true, false, from);
    }
}

static void free_edges(void)
{
    while (kz.edge->count)
        munmap(kz.edge->kept[--kz.edge->count], 2 * PAGE);
}

const KzModule kz_edge_module = {KZ_STATE(edge), .free = free_edges};
