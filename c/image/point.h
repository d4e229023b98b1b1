/* Instructions of images that touch memory which several clients may share: each is told of before it is carried out (KzBinaries.watch). */
#ifndef KZ_IMAGE_POINT_H
#define KZ_IMAGE_POINT_H

#include "image/code.h"
#include "image/machine.h"

/* point.c: all of an image's, which stop there from now on. */
void kz_put_points(const KzImage *image);
bool kz_is_point(uint64_t address);
/* The thread stands at one: it goes on with the instruction. */
void kz_pass_point(KzContext *context);
/* lists.c: whether that is a lookaside list's own memory, which the kit's headers count in without a lock. */
bool kz_is_in_list(uint64_t address);
/* A binary compares memory by a call. */
void kz_watch_compare(const void *a, const void *b, size_t size);

/* An instruction that is watched. */
typedef struct {
    uint64_t at;
    const uint8_t *slot; /* where it is carried out */
    KzInstruction one;
    KzOperand operand;
    bool begins_update, ends_update;
} KzPoint;

/* update.c: of these instructions, which read what a later one writes back, changed: the later one's number; 0 if there is none. */
size_t kz_end_of_update(const KzCode *code, size_t at);
/* lock.c: where its operand lies, and whether an interlocked one is about to change it. */
uint64_t kz_operand_at(const KzPoint *point, const KzContext *context);
bool kz_is_changed(const KzPoint *point, const KzContext *context, uint64_t address);

#endif
