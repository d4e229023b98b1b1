/* How long an instruction is: prefixes, an opcode, a ModRM byte with what it asks for, and what stands in the instruction itself. */
#include "image/instruction.h"

#include <string.h>

/* What stands behind each opcode. m: ModRM; M: that, and 1 byte; Z: that, and 4 (2 for short operands); b: 1 byte; w: 2; z: 4 (2); v: 4 (8, 2); o: an address; e: 3; j: how far, in 1 byte;
 * J: in 4; g, G: ModRM, and 1 or 4 bytes for the first two of the group; x: none that is known. */
static const char one_byte[] = "mmmmbzxxmmmmbzxxmmmmbzxxmmmmbzxxmmmmbzxxmmmmbzxxmmmmbzxxmmmmbzxx"
                               "xxxxxxxxxxxxxxxx................xxxmxxxxzZbM....jjjjjjjjjjjjjjjj"
                               "MZxMmmmmmmmmmmmm..........x.....oooo....bz......bbbbbbbbvvvvvvvv"
                               "MMw.xxMZe.w..bx.mmmmxxx.mmmmmmmmjjjjbbbbJJxj....x.xx..gG......mm";
static const char two_bytes[] = "mmmmx.....x.xm.xmmmmmmmmmmmmmmmmmmmmxxxxmmmmmmmm......x.xxxxxxxx"
                                "mmmmmmmmmmmmmmmmmmmmmmmmmmmmmmmmmmmmmmmmmmmmmmmmMMMMmmm.mmxxmmmm"
                                "JJJJJJJJJJJJJJJJmmmmmmmmmmmmmmmm...mMmxx...mMmmmmmmmmmmmmxMmmmmm"
                                "mmMmMMMm........mmmmmmmmmmmmmmmmmmmmmmmmmmmmmmmmmmmmmmmmmmmmmmmx";
_Static_assert(sizeof one_byte == 257 && sizeof two_bytes == 257, "a letter for each opcode");

typedef struct {
    const uint8_t *at;
    size_t left, used;
} Bytes;

static bool take(Bytes *from, void *to, size_t size)
{
    if (from->left < size)
        return false;
    memcpy(to, from->at + from->used, size);
    from->used += size;
    from->left -= size;
    return true;
}

static unsigned next(const Bytes *from)
{
    return from->left ? from->at[from->used] : 0x100;
}

static bool is_prefix(unsigned byte, KzInstruction *to)
{
    switch (byte) {
    case 0x66:
        return to->is_short = true;
    case 0x67:
        return to->has_short_address = true;
    case 0xf0:
        return to->is_locked = true;
    case 0xf2:
    case 0xf3:
        return (to->repeat = (uint8_t)byte);
    case 0x64:
    case 0x65:
        return to->has_segment = true;
    default:
        return byte == 0x26 || byte == 0x2e || byte == 0x36 || byte == 0x3e;
    }
}

/* The bits that make registers' numbers larger are upside down in there. */
static bool take_vector(Bytes *from, unsigned first, KzInstruction *to)
{
    uint8_t bytes[3] = {0};
    size_t size = first == 0xc5 ? 1 : first == 0xc4 ? 2 : 3;
    to->is_vector = true;
    if (!take(from, bytes, size) || !take(from, &to->opcode, 1))
        return false;
    unsigned map = first == 0xc5 ? 1 : bytes[0] & (first == 0xc4 ? 31u : 7u), upside = ~bytes[0] & 0xffu;
    to->rex = (uint8_t)(0x40 | (upside >> 5 & (size > 1 ? 7 : 4)));
    to->map = (KzMap)map;
    return map >= KZ_0F && map <= KZ_0F_3A;
}

static bool take_opcode(Bytes *from, KzInstruction *to)
{
    unsigned byte = next(from);
    for (; from->left && is_prefix(byte, to); byte = next(from))
        from->used++, from->left--;
    if ((byte & 0xfff0) == 0x40 && !take(from, &to->rex, 1))
        return false;
    if (!take(from, &to->opcode, 1))
        return false;
    if (to->opcode == 0xc4 || to->opcode == 0xc5 || to->opcode == 0x62)
        return take_vector(from, to->opcode, to);
    if (to->opcode != 0x0f)
        return true;
    to->map = KZ_0F;
    if (!take(from, &to->opcode, 1))
        return false;
    if (to->opcode != 0x38 && to->opcode != 0x3a)
        return true;
    to->map = to->opcode == 0x38 ? KZ_0F_38 : KZ_0F_3A;
    return take(from, &to->opcode, 1);
}

static char letter_of(const KzInstruction *one)
{
    return one->map == KZ_ONE_BYTE ? one_byte[one->opcode] : one->map == KZ_0F ? two_bytes[one->opcode] : one->map == KZ_0F_38 ? 'm' : 'M';
}

/* Base, index and scale, in a byte of their own. Answers whether 4 bytes stand in the base's place. */
static bool take_scaled(unsigned byte, unsigned mode, KzInstruction *to)
{
    unsigned index = (byte >> 3 & 7) | (to->rex & 2u) << 2;
    bool has_none = (byte & 7) == 5 && mode == 0;
    to->index = index == 4 ? KZ_NONE : (int8_t)index;
    to->scale = (uint8_t)(byte >> 6);
    to->base = has_none ? KZ_NONE : (int8_t)((byte & 7) | (to->rex & 1u) << 3);
    return has_none;
}

static bool take_modrm(Bytes *from, KzInstruction *to)
{
    uint8_t scaled;
    int8_t near = 0;
    to->has_modrm = true;
    if (!take(from, &to->modrm, 1))
        return false;
    unsigned mode = to->modrm >> 6, base = to->modrm & 7;
    to->has_memory = mode != 3 && !(to->map == KZ_0F && to->opcode >= 0x20 && to->opcode <= 0x23);
    if (!to->has_memory)
        return true;
    to->base = (int8_t)(base | (to->rex & 1u) << 3);
    bool is_far = mode == 2 || (mode == 0 && base == 5);
    if (mode == 0 && base == 5)
        to->base = KZ_RIP;
    if (base == 4) {
        if (!take(from, &scaled, 1))
            return false;
        is_far |= take_scaled(scaled, mode, to);
    }
    if (is_far) {
        to->displacement_at = (uint8_t)from->used;
        return take(from, &to->displacement, 4);
    }
    if (mode == 1 && !take(from, &near, 1))
        return false;
    to->displacement = near;
    return true;
}

static unsigned immediate_of(char letter, const KzInstruction *one)
{
    bool is_wide = one->rex & 8;
    unsigned usual = one->is_short && !is_wide ? 2 : 4, group = one->modrm >> 3 & 7;
    switch (letter) {
    case 'M':
    case 'b':
    case 'j':
        return 1;
    case 'w':
        return 2;
    case 'e':
        return 3;
    case 'Z':
    case 'z':
        return usual;
    case 'J':
        return 4;
    case 'v':
        return is_wide ? 8 : usual;
    case 'o':
        return one->has_short_address ? 4 : 8;
    case 'g':
    case 'G':
        return group > 1 ? 0 : letter == 'g' ? 1 : usual;
    default:
        return 0;
    }
}

static KzFlow flow_of(const KzInstruction *one)
{
    unsigned group = one->modrm >> 3 & 7, opcode = one->opcode;
    if (one->is_vector)
        return KZ_GOES_ON;
    if (one->map == KZ_0F)
        return opcode >= 0x80 && opcode <= 0x8f ? KZ_BRANCHES : opcode == 0x0b ? KZ_STOPS : KZ_GOES_ON;
    if (one->map != KZ_ONE_BYTE)
        return KZ_GOES_ON;
    if ((opcode >= 0x70 && opcode <= 0x7f) || (opcode >= 0xe0 && opcode <= 0xe3))
        return KZ_BRANCHES;
    if (opcode == 0xff)
        return group == 2 || group == 3 ? KZ_CALLS_BY_POINTER : group == 4 || group == 5 ? KZ_JUMPS_BY_POINTER : KZ_GOES_ON;
    if (opcode == 0xe8)
        return KZ_CALLS;
    if (opcode == 0xe9 || opcode == 0xeb)
        return KZ_JUMPS;
    if (opcode == 0xcc || opcode == 0xf4)
        return KZ_STOPS;
    return opcode == 0xc2 || opcode == 0xc3 || opcode == 0xca || opcode == 0xcb || opcode == 0xcf ? KZ_RETURNS : KZ_GOES_ON;
}

static bool take_immediate(Bytes *from, char letter, KzInstruction *to)
{
    uint8_t bytes[8] = {0};
    to->immediate_size = (uint8_t)immediate_of(letter, to);
    if (!take(from, bytes, to->immediate_size))
        return false;
    to->has_offset = letter == 'o';
    if (letter == 'j')
        to->distance = (int8_t)bytes[0];
    else if (letter == 'J')
        memcpy(&to->distance, bytes, 4);
    return true;
}

bool kz_decode(const uint8_t *at, size_t room, KzInstruction *to)
{
    Bytes from = {at, room < KZ_LONGEST ? room : KZ_LONGEST, 0};
    *to = (KzInstruction){.base = KZ_NONE, .index = KZ_NONE};
    if (!take_opcode(&from, to))
        return false;
    char letter = letter_of(to);
    if (letter == 'x' || (strchr("mMZgG", letter) && !take_modrm(&from, to)) || !take_immediate(&from, letter, to))
        return false;
    to->length = (uint8_t)from.used;
    to->flow = flow_of(to);
    return true;
}

unsigned kz_register(const KzInstruction *one)
{
    return (one->modrm >> 3 & 7) | (one->rex & 4u) << 1;
}

unsigned kz_other_register(const KzInstruction *one)
{
    return (one->modrm & 7) | (one->rex & 1u) << 3;
}
