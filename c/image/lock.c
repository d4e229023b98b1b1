/* Where a watched instruction reaches, by the registers; and whether an interlocked one changes what it finds there: one that doesn't is tried again by whoever waits. */
#include "image/point.h"

static uint64_t bits(uint64_t value, unsigned size)
{
    return size >= 8 ? value : value & ((1ULL << 8 * size) - 1);
}

/* bt and its kin, by a register: which bit, counted from the operand on. */
static bool is_bit_by_register(const KzInstruction *one)
{
    return one->map == KZ_0F && (one->opcode == 0xa3 || one->opcode == 0xab || one->opcode == 0xb3 || one->opcode == 0xbb);
}

static int64_t bit_of(const KzPoint *point, const KzContext *context)
{
    uint64_t value = context->integers[kz_register(&point->one)];
    return point->operand.size == 8 ? (int64_t)value : point->operand.size == 4 ? (int32_t)value : (int16_t)value;
}

uint64_t kz_operand_at(const KzPoint *point, const KzContext *context)
{
    const KzInstruction *one = &point->one;
    uint64_t at = (uint64_t)(int64_t)one->displacement;
    if (one->base == KZ_RIP)
        at += point->at + one->length;
    else if (one->base != KZ_NONE)
        at += context->integers[one->base];
    if (one->index != KZ_NONE)
        at += context->integers[one->index] << one->scale;
    if (is_bit_by_register(one))
        at += (uint64_t)((bit_of(point, context) >> (point->operand.size == 8 ? 6 : point->operand.size == 4 ? 5 : 4)) * (int64_t)point->operand.size);
    return at;
}

/* A register's lower bytes; ah and its kin are the second bytes of the first four. */
static uint64_t source_of(const KzPoint *point, const KzContext *context)
{
    unsigned number = kz_register(&point->one), size = point->operand.size;
    bool is_second = size == 1 && number >= 4 && number < 8 && !point->one.rex;
    return bits(context->integers[is_second ? number - 4 : number] >> (is_second ? 8 : 0), size);
}

static uint64_t immediate_of(const KzPoint *point)
{
    const uint8_t *at = point->slot + point->one.length - point->one.immediate_size;
    int64_t value = 0;
    memcpy(&value, at, point->one.immediate_size > 4 ? 4 : point->one.immediate_size);
    value = point->one.immediate_size == 1 ? (int8_t)value : point->one.immediate_size == 2 ? (int16_t)value : (int32_t)value;
    return bits((uint64_t)value, point->operand.size);
}

/* add, or, adc, sbb, and, sub, xor, by their numbers. */
static bool is_changed_by(unsigned which, uint64_t value, uint64_t by)
{
    return which == 1 ? (value | by) != value : which == 4 ? (value & by) != value : by != 0;
}

static bool is_bit_changed(unsigned which, uint64_t value, uint64_t bit)
{
    bool is_set = value >> bit & 1;
    return which == 5 ? !is_set : which == 6 ? is_set : true; /* bts, btr, btc */
}

/* It puts a value where it finds the one in eax. */
static bool is_exchanged(const KzPoint *point, const KzContext *context, uint64_t value)
{
    unsigned size = point->operand.size;
    return bits(context->integers[KZ_RAX], size) == value && source_of(point, context) != value;
}

static bool is_pair_exchanged(const KzPoint *point, const KzContext *context, uint64_t address)
{
    unsigned half = point->operand.size / 2;
    uint64_t low = 0, high = 0;
    memcpy(&low, (const void *)(uintptr_t)address, half);
    memcpy(&high, (const void *)(uintptr_t)(address + half), half);
    bool is_equal = low == bits(context->integers[KZ_RAX], half) && high == bits(context->integers[KZ_RDX], half);
    return is_equal && (low != bits(context->integers[KZ_RBX], half) || high != bits(context->integers[KZ_RCX], half));
}

static bool is_changed_behind_0f(const KzPoint *point, const KzContext *context, uint64_t value)
{
    unsigned opcode = point->one.opcode, group = point->one.modrm >> 3 & 7, size = point->operand.size;
    switch (opcode) {
    case 0xb0:
    case 0xb1:
        return is_exchanged(point, context, value);
    case 0xc0:
    case 0xc1:
        return source_of(point, context) != 0;
    case 0xba:
        return is_bit_changed(group, value, immediate_of(point) & (8 * size - 1));
    default: /* ab, b3, bb */
        return is_bit_changed(opcode >> 3 & 7, value, (uint64_t)bit_of(point, context) & (8 * size - 1));
    }
}

bool kz_is_changed(const KzPoint *point, const KzContext *context, uint64_t address)
{
    unsigned opcode = point->one.opcode, group = point->one.modrm >> 3 & 7;
    uint64_t value = 0;
    if (point->one.map == KZ_0F && opcode == 0xc7)
        return is_pair_exchanged(point, context, address);
    memcpy(&value, (const void *)(uintptr_t)address, point->operand.size);
    if (point->one.map == KZ_0F)
        return is_changed_behind_0f(point, context, value);
    if (opcode == 0x86 || opcode == 0x87)
        return source_of(point, context) != value;
    if (opcode >= 0x80 && opcode <= 0x83)
        return is_changed_by(group, value, immediate_of(point));
    return opcode >= 0x40 || is_changed_by(opcode >> 3, value, source_of(point, context)); /* inc, dec, neg and not change it */
}
