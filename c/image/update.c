/* An update in several instructions, as `x++` is where a compiler doesn't optimize: a read of memory, a few instructions between registers, and a write of what came of it. Whether the place is
 * the same is seen when they run. */
#include "image/point.h"

enum { FURTHEST = 12 };

/* Which registers hold what comes of the read: a bit for each. */
typedef struct {
    unsigned registers;
    bool is_over;
} Holds;

static bool has(const Holds *holds, int number)
{
    return number >= 0 && number < 16 && holds->registers >> number & 1;
}

static void set(Holds *holds, unsigned number, bool is)
{
    holds->registers = (holds->registers & ~(1U << number)) | (unsigned)is << number;
}

static bool is_load(const KzInstruction *one)
{
    unsigned opcode = one->opcode;
    if (!one->has_memory || one->is_vector || one->is_locked)
        return false;
    return one->map == KZ_ONE_BYTE ? opcode == 0x8a || opcode == 0x8b || opcode == 0x63 : one->map == KZ_0F && (opcode & 0xf6) == 0xb6;
}

static bool is_store(const KzInstruction *one)
{
    return one->map == KZ_ONE_BYTE && !one->is_vector && one->has_memory && (one->opcode == 0x88 || one->opcode == 0x89);
}

/* From one register to another: what it holds goes there, or stays and more comes to it. */
static void between_registers(Holds *holds, const KzInstruction *one)
{
    unsigned opcode = one->opcode, here = kz_register(one), there = kz_other_register(one);
    bool is_to_here = opcode & 2, is_move = (opcode >= 0x88 && opcode <= 0x8b) || one->map == KZ_0F || opcode == 0x63;
    if (one->map == KZ_0F || opcode == 0x63)
        is_to_here = true;
    unsigned to = is_to_here ? here : there, from = is_to_here ? there : here;
    if (opcode < 0x40 && opcode >= 0x38 && one->map == KZ_ONE_BYTE) /* cmp */
        return;
    set(holds, to, has(holds, (int)from) || (!is_move && has(holds, (int)to)));
}

static void follow_one_byte(Holds *holds, const KzInstruction *one)
{
    unsigned opcode = one->opcode;
    if (one->has_modrm && !one->has_memory && (opcode < 0x40 || (opcode >= 0x88 && opcode <= 0x8b) || opcode == 0x63))
        between_registers(holds, one);
    else if (opcode == 0x8d)
        set(holds, kz_register(one), has(holds, one->base) || has(holds, one->index));
    else if (is_load(one))
        set(holds, kz_register(one), false);
    else if (opcode >= 0xb0 && opcode <= 0xbf)
        set(holds, (opcode & 7) | (one->rex & 1u) << 3, false);
    else /* what changes its own register alone, or what doesn't change any */
        holds->is_over = !(opcode < 0x40 || (opcode >= 0x80 && opcode <= 0x85) || opcode == 0xc0 || opcode == 0xc1 || (opcode >= 0xd0 && opcode <= 0xd3) || opcode >= 0xfe || opcode == 0x98 ||
                           opcode == 0xa8 || opcode == 0xa9 || is_store(one) || opcode == 0xc6 || opcode == 0xc7 || opcode == 0x90);
}

static void follow(Holds *holds, const KzInstruction *one)
{
    bool is_extended = one->map == KZ_0F && ((one->opcode & 0xf6) == 0xb6);
    if (one->is_vector || one->is_locked || one->flow != KZ_GOES_ON)
        holds->is_over = true;
    else if (one->map == KZ_ONE_BYTE)
        follow_one_byte(holds, one);
    else if (is_extended && one->has_memory)
        set(holds, kz_register(one), false);
    else if (is_extended)
        between_registers(holds, one);
    else
        holds->is_over = one->map != KZ_0F || one->opcode != 0xaf;
}

static bool is_on_stack(const KzCode *code, const KzInstruction *one)
{
    return one->base == KZ_RSP || (one->base != KZ_NONE && one->base == code->frame);
}

size_t kz_end_of_update(const KzCode *code, size_t at)
{
    const KzInstruction *first = &code->all[at].one;
    Holds holds = {0};
    if (!is_load(first) || is_on_stack(code, first))
        return 0;
    set(&holds, kz_register(first), true);
    for (size_t next = at + 1; next < code->count && next <= at + FURTHEST && !code->all[next].is_target && !holds.is_over && holds.registers; next++) {
        const KzInstruction *one = &code->all[next].one;
        if (is_store(one) && !is_on_stack(code, one) && has(&holds, (int)kz_register(one)))
            return next;
        follow(&holds, one);
    }
    return 0;
}
