/* Instructions that are carried out at another place than they were linked for. */
#ifndef KZ_IMAGE_SLOT_H
#define KZ_IMAGE_SLOT_H

#include "image/image.h"
#include "image/instruction.h"

enum { KZ_JUMP = 5 };
/* Room for so many bytes of code; NULL if there is none. It can be written until all of them are closed, and run from then on. */
uint8_t *kz_open_slot(size_t size);
void kz_close_slots(void);
/* The instruction that lies at `from` goes to `to`, and reaches the same memory from there: where the next one goes. */
uint8_t *kz_move(uint8_t *to, const uint8_t *bytes, uint64_t from, const KzInstruction *one);
/* As kz_move says: a jump. */
uint8_t *kz_put_jump(uint8_t *at, uint64_t to);
/* Where the instruction was linked for; the address itself if it wasn't moved. */
uint64_t kz_moved_from(uint64_t address);

#endif
