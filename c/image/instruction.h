/* One instruction of x86-64: how long it is, where it goes on, and what it does with memory. */
#ifndef KZ_IMAGE_INSTRUCTION_H
#define KZ_IMAGE_INSTRUCTION_H

#include <stdbool.h>
#include <stddef.h>
#include <stdint.h>

enum { KZ_NONE = -1, KZ_RIP = 16, KZ_LONGEST = 15 };
typedef enum { KZ_GOES_ON, KZ_JUMPS, KZ_BRANCHES, KZ_CALLS, KZ_JUMPS_BY_POINTER, KZ_CALLS_BY_POINTER, KZ_RETURNS, KZ_STOPS } KzFlow;
/* Tables of opcodes: of one byte, and behind 0f, 0f 38 and 0f 3a. */
typedef enum { KZ_ONE_BYTE, KZ_0F, KZ_0F_38, KZ_0F_3A } KzMap;

typedef struct {
    uint8_t length, opcode, rex, modrm, repeat; /* repeat: f2, f3 or 0 */
    KzMap map;
    bool has_modrm, is_locked, is_short, is_vector, has_segment, has_short_address;
    /* Its operand in memory. */
    bool has_memory, has_offset; /* has_offset: a whole address of 8 bytes stands in it, and no register */
    int8_t base, index;          /* KZ_NONE, KZ_RIP or a register's number */
    uint8_t scale;               /* a power of 2 */
    uint8_t displacement_at;     /* where its 4 bytes stand, if it has 4 */
    int32_t displacement;
    uint8_t immediate_size;
    KzFlow flow;
    int32_t distance; /* of a jump, a branch or a call: from behind it */
} KzInstruction;

/* instruction.c: false if it isn't known, or is cut off. */
bool kz_decode(const uint8_t *at, size_t room, KzInstruction *to);
/* The number of the register that stands in its ModRM byte beside memory, or in the place of memory. */
unsigned kz_register(const KzInstruction *one);
unsigned kz_other_register(const KzInstruction *one);

/* access.c: what it does with its operand in memory. Those that the stack's pointer alone gives (push and its kin) aren't meant. */
enum { KZ_READS = 1, KZ_WRITES = 2, KZ_LOCKED = 4, KZ_STRING = 8 };
typedef struct {
    unsigned how, size;
} KzOperand;
KzOperand kz_operand(const KzInstruction *one);

#endif
