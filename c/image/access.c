/* What an instruction does with its operand in memory, by its opcode. */
#include "image/instruction.h"

enum { CHANGES = KZ_READS | KZ_WRITES };

static unsigned whole(const KzInstruction *one)
{
    return one->rex & 8 ? 8 : one->is_short ? 2 : 4;
}

/* Opcodes whose last bit says whether the operand is a byte. */
static unsigned by_bit(const KzInstruction *one)
{
    return one->opcode & 1 ? whole(one) : 1;
}

static KzOperand of_group(const KzInstruction *one, unsigned group)
{
    switch (one->opcode) {
    case 0xf6:
    case 0xf7:
        return (KzOperand){group == 2 || group == 3 ? CHANGES : KZ_READS, by_bit(one)};
    case 0xfe:
        return (KzOperand){CHANGES, 1};
    default: /* ff: two change, the others call, jump and push */
        return group < 2 ? (KzOperand){CHANGES, whole(one)} : (KzOperand){KZ_READS, 8};
    }
}

static KzOperand of_move(const KzInstruction *one)
{
    switch (one->opcode) {
    case 0x63:
        return (KzOperand){KZ_READS, 4};
    case 0x8a:
    case 0x8b:
        return (KzOperand){KZ_READS, by_bit(one)};
    case 0x88:
    case 0x89:
    case 0xc6:
    case 0xc7:
        return (KzOperand){KZ_WRITES, by_bit(one)};
    case 0x8c:
        return (KzOperand){KZ_WRITES, 2};
    case 0x8e:
        return (KzOperand){KZ_READS, 2};
    case 0x8f:
        return (KzOperand){KZ_WRITES, 8};
    default: /* lea; numbers of the coprocessor, which no driver has */
        return (KzOperand){0, 0};
    }
}

static KzOperand of_one_byte(const KzInstruction *one)
{
    unsigned opcode = one->opcode, group = one->modrm >> 3 & 7;
    if (opcode < 0x40) /* cmp is the last of them */
        return (KzOperand){opcode & 2 || opcode >= 0x38 ? KZ_READS : CHANGES, by_bit(one)};
    switch (opcode) {
    case 0x69:
    case 0x6b:
        return (KzOperand){KZ_READS, whole(one)};
    case 0x80:
    case 0x81:
    case 0x83:
        return (KzOperand){group == 7 ? KZ_READS : CHANGES, by_bit(one)};
    case 0x84:
    case 0x85:
        return (KzOperand){KZ_READS, by_bit(one)};
    case 0x86:
    case 0x87: /* xchg needs no prefix */
        return (KzOperand){CHANGES | KZ_LOCKED, by_bit(one)};
    case 0xc0:
    case 0xc1:
    case 0xd0:
    case 0xd1:
    case 0xd2:
    case 0xd3:
        return (KzOperand){CHANGES, by_bit(one)};
    case 0xf6:
    case 0xf7:
    case 0xfe:
    case 0xff:
        return of_group(one, group);
    default:
        return of_move(one);
    }
}

/* ---- Registers of 16 bytes, and of 8. */
static unsigned of_kind(const KzInstruction *one)
{
    return one->repeat == 0xf3 ? 4 : one->repeat == 0xf2 ? 8 : 16;
}

static unsigned by_prefix(const KzInstruction *one)
{
    return one->is_short || one->repeat ? 16 : 8;
}

static unsigned wide(const KzInstruction *one)
{
    return one->rex & 8 ? 8 : 4;
}

static KzOperand of_moved_vector(const KzInstruction *one)
{
    switch (one->opcode) {
    case 0x10:
        return (KzOperand){KZ_READS, of_kind(one)};
    case 0x11:
        return (KzOperand){KZ_WRITES, of_kind(one)};
    case 0x12:
    case 0x16:
        return (KzOperand){KZ_READS, one->repeat == 0xf3 ? 16 : 8};
    case 0x13:
    case 0x17:
    case 0xd6:
        return (KzOperand){KZ_WRITES, 8};
    case 0x29:
    case 0x2b:
        return (KzOperand){KZ_WRITES, 16};
    case 0x6e:
        return (KzOperand){KZ_READS, wide(one)};
    case 0x7e:
        return one->repeat ? (KzOperand){KZ_READS, 8} : (KzOperand){KZ_WRITES, wide(one)};
    case 0x7f:
    case 0xe7:
        return (KzOperand){KZ_WRITES, by_prefix(one)};
    default:
        return (KzOperand){0, 0};
    }
}

static KzOperand of_counted_vector(const KzInstruction *one)
{
    unsigned opcode = one->opcode;
    if (opcode == 0x2a)
        return (KzOperand){KZ_READS, one->repeat ? wide(one) : 8};
    if (opcode == 0x2c || opcode == 0x2d)
        return (KzOperand){KZ_READS, one->repeat == 0xf3 ? 4 : one->is_short ? 16 : 8};
    if (opcode == 0x2e || opcode == 0x2f)
        return (KzOperand){KZ_READS, one->is_short ? 8 : 4};
    if (opcode == 0x5a || opcode == 0xe6)
        return (KzOperand){KZ_READS, one->repeat == 0xf3 && opcode == 0x5a ? 4 : one->repeat == 0xf2 && opcode == 0xe6 ? 16 : one->is_short ? 16 : 8};
    if (opcode >= 0x60 && opcode <= 0x62)
        return (KzOperand){KZ_READS, one->is_short ? 16 : 4};
    if ((opcode >= 0x51 && opcode <= 0x5f) || opcode == 0xc2)
        return (KzOperand){KZ_READS, of_kind(one)};
    if (opcode == 0x14 || opcode == 0x15 || opcode == 0x28 || opcode == 0xc6 || opcode == 0xf0)
        return (KzOperand){KZ_READS, 16};
    if (opcode == 0xc4)
        return (KzOperand){KZ_READS, 2};
    if ((opcode >= 0x63 && opcode <= 0x76) || opcode == 0x7c || opcode == 0x7d || opcode >= 0xd0)
        return (KzOperand){KZ_READS, by_prefix(one)};
    return (KzOperand){0, 0};
}

/* ---- Behind 0f: bits, and what several processors share. */
static KzOperand of_bits(const KzInstruction *one)
{
    unsigned group = one->modrm >> 3 & 7;
    switch (one->opcode) {
    case 0xa3:
    case 0xaf:
    case 0xb8:
    case 0xbc:
    case 0xbd:
        return (KzOperand){KZ_READS, whole(one)};
    case 0xa4:
    case 0xa5:
    case 0xab:
    case 0xac:
    case 0xad:
    case 0xb1:
    case 0xb3:
    case 0xbb:
    case 0xc1:
        return (KzOperand){CHANGES, whole(one)};
    case 0xb0:
    case 0xc0:
        return (KzOperand){CHANGES, 1};
    case 0xb6:
    case 0xbe:
        return (KzOperand){KZ_READS, 1};
    case 0xb7:
    case 0xbf:
        return (KzOperand){KZ_READS, 2};
    case 0xba:
        return (KzOperand){group == 4 ? KZ_READS : CHANGES, whole(one)};
    case 0xc3:
        return (KzOperand){KZ_WRITES, whole(one)};
    case 0xc7:
        return group == 1 ? (KzOperand){CHANGES, 2 * wide(one)} : (KzOperand){0, 0};
    default:
        return (KzOperand){0, 0};
    }
}

static KzOperand of_two_bytes(const KzInstruction *one)
{
    unsigned opcode = one->opcode;
    if (opcode >= 0x40 && opcode <= 0x4f)
        return (KzOperand){KZ_READS, whole(one)};
    if (opcode >= 0x90 && opcode <= 0x9f)
        return (KzOperand){KZ_WRITES, 1};
    KzOperand said = of_bits(one);
    if (!said.how)
        said = of_moved_vector(one);
    return said.how || opcode == 0xae || opcode == 0xc7 ? said : of_counted_vector(one);
}

/* movs, stos, lods, cmps and scas, whose addresses stand in rsi and rdi. */
static KzOperand of_string(const KzInstruction *one)
{
    switch (one->opcode & 0xfe) {
    case 0xa4:
        return (KzOperand){CHANGES | KZ_STRING, by_bit(one)};
    case 0xaa:
        return (KzOperand){KZ_WRITES | KZ_STRING, by_bit(one)};
    case 0xa6:
    case 0xac:
    case 0xae:
        return (KzOperand){KZ_READS | KZ_STRING, by_bit(one)};
    default:
        return (KzOperand){0, 0};
    }
}

KzOperand kz_operand(const KzInstruction *one)
{
    if (one->is_vector || one->map > KZ_0F)
        return (KzOperand){0, 0};
    if (one->map == KZ_ONE_BYTE && !one->has_modrm)
        return of_string(one);
    if (!one->has_memory)
        return (KzOperand){0, 0};
    KzOperand said = one->map == KZ_0F ? of_two_bytes(one) : of_one_byte(one);
    if (one->is_locked && said.how)
        said.how |= KZ_LOCKED;
    return said;
}
