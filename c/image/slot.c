/* Rooms of moved instructions, behind the images. Each knows where it comes from: a fault in it is one of the instruction at its own place. */
#include "image/slot.h"

#include "core/memory.h"

#include <stdlib.h>
#include <sys/mman.h>

enum { CHUNK = 1 << 16, ROUND = 16 };

typedef struct {
    uint64_t at, from;
    unsigned length;
} Moved;

static Moved *moved; /* in the order of their addresses */
static size_t moved_count, moved_room;
static uint8_t *chunk;
static size_t used = CHUNK;

uint8_t *kz_open_slot(size_t size)
{
    size = (size + ROUND - 1) & ~(size_t)(ROUND - 1);
    if (used + size > CHUNK) {
        kz_close_slots();
        chunk = kz_take_arena(CHUNK);
        used = chunk ? 0 : CHUNK;
    }
    if (!chunk)
        return NULL;
    used += size;
    return chunk + used - size;
}

void kz_close_slots(void)
{
    if (chunk)
        mprotect(chunk, CHUNK, PROT_READ | PROT_EXEC);
    chunk = NULL;
    used = CHUNK;
}

static void note(uint64_t at, uint64_t from, unsigned length)
{
    if (moved_count == moved_room) {
        moved_room = moved_room ? 2 * moved_room : 256;
        Moved *larger = kz_memory(moved_room * sizeof *larger);
        if (moved_count)
            memcpy(larger, moved, moved_count * sizeof *larger);
        free(moved);
        moved = larger;
    }
    moved[moved_count++] = (Moved){at, from, length};
}

uint8_t *kz_move(uint8_t *to, const uint8_t *bytes, uint64_t from, const KzInstruction *one)
{
    memcpy(to, bytes, one->length);
    if (one->has_memory && one->base == KZ_RIP) {
        int32_t displacement = (int32_t)(one->displacement + (int64_t)(from - (uintptr_t)to));
        memcpy(to + one->displacement_at, &displacement, sizeof displacement);
    }
    note((uintptr_t)to, from, one->length);
    return to + one->length;
}

uint8_t *kz_put_jump(uint8_t *at, uint64_t to)
{
    int32_t distance = (int32_t)(to - ((uintptr_t)at + KZ_JUMP));
    at[0] = 0xe9;
    memcpy(at + 1, &distance, sizeof distance);
    return at + KZ_JUMP;
}

uint64_t kz_moved_from(uint64_t address)
{
    size_t from = 0, to = moved_count;
    while (from < to) {
        size_t middle = (from + to) / 2;
        if (address < moved[middle].at)
            to = middle;
        else if (address >= moved[middle].at + moved[middle].length)
            from = middle + 1;
        else
            return moved[middle].from;
    }
    return address;
}
