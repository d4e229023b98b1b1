/* The instructions of an image: its functions by .pdata, and those without an entry there that somebody calls or has the address of. Data that a compiler puts between them isn't taken for code. */
#ifndef KZ_IMAGE_CODE_H
#define KZ_IMAGE_CODE_H

#include "image/image.h"
#include "image/instruction.h"

typedef struct {
    uint32_t at; /* in the image */
    KzInstruction one;
    bool is_target; /* a branch or a call goes there */
} KzPlaced;

typedef struct {
    const KzPlaced *all;
    size_t count;
    int frame;         /* the register that a frame is addressed by; KZ_NONE if the stack's pointer is */
    bool has_handler;  /* it may also go on where a handler says */
    bool has_pointers; /* it jumps by a pointer, so to where nobody knows */
} KzCode;

typedef void KzUseCode(void *given, const KzCode *code);
/* One function after the other. */
void kz_read_code(const KzImage *image, KzUseCode *use, void *given);

#endif
