/* The IRQL is in cr8, which no program may read or write: an instruction that does so traps, and is carried out in place of the driver (fault.c). A trap costs ten microseconds; so where there is
 * room for a jump the instruction gets one, to a few of its own that call the host. It has 4 bytes and a jump has 5: the one behind it or the one before it goes along, if it goes on to the next
 * one, nobody jumps between the two, and it touches nothing but its own frame. */
#include "image/code.h"

#include "image/calls.h"
#include "image/machine.h"
#include "image/slot.h"
#include "core/memory.h"

#include <stdlib.h>

enum { ROOM = 64, READS = 0x20, WRITES = 0x22, CR8 = 8, INT3 = 0xcc };

typedef struct {
    const void *caller;
    unsigned number; /* of the register */
    bool is_read;
} Level;

static Level *levels;
static size_t levels_count, levels_room;

extern const uint8_t kz_level_entry[];
void kz_pass_level(uint64_t *integers, unsigned which);
__attribute__((section("kz_stubs"), noinline)) void kz_pass_level(uint64_t *integers, unsigned which)
{
    const Level *one = &levels[which];
    integers[one->number] = kz_move_irql(integers[one->number], one->is_read, one->caller);
}

static bool is_level(const KzInstruction *one)
{
    return one->map == KZ_0F && !one->is_vector && (one->opcode == READS || one->opcode == WRITES) && kz_register(one) == CR8;
}

static bool is_movable(const KzCode *code, const KzInstruction *one)
{
    bool is_own = one->index == KZ_NONE && (one->base == KZ_RSP || (one->base != KZ_NONE && one->base == code->frame));
    return one->flow == KZ_GOES_ON && !is_level(one) && (!kz_operand(one).how || is_own) && !one->has_segment && one->opcode != 0xcd;
}

static size_t add(const KzImage *image, const KzPlaced *placed)
{
    if (levels_count == levels_room) {
        levels_room = levels_room ? 2 * levels_room : 64;
        Level *larger = kz_memory(levels_room * sizeof *larger);
        if (levels_count)
            memcpy(larger, levels, levels_count * sizeof *larger);
        free(levels);
        levels = larger;
    }
    levels[levels_count] = (Level){image->bytes.start + placed->at + placed->one.length, kz_other_register(&placed->one), placed->one.opcode == READS};
    return levels_count++;
}

/* push which; call [kz_level_entry]: the address stands at the slot's end. */
static uint8_t *put_call(uint8_t *to, uint8_t *end, size_t which)
{
    const void *entry = kz_level_entry;
    uint32_t number = (uint32_t)which, distance = (uint32_t)(end - 8 - (to + 11));
    to[0] = 0x68;
    memcpy(to + 1, &number, 4);
    to[5] = 0xff;
    to[6] = 0x15;
    memcpy(to + 7, &distance, 4);
    memcpy(end - 8, &entry, 8);
    return to + 11;
}

static uint8_t *move_one(uint8_t *to, const KzImage *image, const KzPlaced *placed)
{
    return kz_move(to, image->pristine + placed->at, (uintptr_t)image->bytes.start + placed->at, &placed->one);
}

/* These two, of which one is it. */
static void rewrite(const KzImage *image, const KzPlaced *first)
{
    const KzPlaced *last = first + 1;
    uint8_t *at = image->bytes.start + first->at, *behind = image->bytes.start + last->at + last->one.length, *slot = kz_open_slot(ROOM), *to = slot;
    if (!slot)
        return;
    to = is_level(&first->one) ? put_call(to, slot + ROOM, add(image, first)) : move_one(to, image, first);
    to = is_level(&last->one) ? put_call(to, slot + ROOM, add(image, last)) : move_one(to, image, last);
    kz_put_jump(to, (uintptr_t)behind);
    for (uint8_t *rest = kz_put_jump(at, (uintptr_t)slot); rest < behind; rest++)
        *rest = INT3;
}

static void rewrite_all(void *given, const KzCode *code)
{
    size_t next = 0; /* those before it are in place */
    if (code->has_handler || code->has_pointers)
        return;
    for (size_t at = 0; at < code->count; at++) {
        const KzPlaced *one = &code->all[at];
        if (!is_level(&one->one))
            continue;
        if (at + 1 < code->count && !one[1].is_target && is_movable(code, &one[1].one)) {
            rewrite(given, one);
            next = at + 2;
        } else if (at > next && !one->is_target && is_movable(code, &one[-1].one)) {
            rewrite(given, one - 1);
            next = at + 1;
        }
    }
}

void kz_rewrite_levels(const KzImage *image)
{
    kz_open_text(image);
    kz_read_code(image, rewrite_all, (void *)(uintptr_t)image);
    kz_close_slots();
    kz_protect_image(image);
}
