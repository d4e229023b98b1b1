/* What a program asks of a file that may be over later. */
#ifndef KZ_USER_LATER_H
#define KZ_USER_LATER_H

#include "host.h"
#include "core/op.h"
#include "user/program.h"

/* Where its answer goes. */
typedef struct {
    KzOverlapped *overlapped; /* NULL: the thread waits */
    void *out;
    uint32_t room;
    uint32_t *done;
} KzAnswerTo;

/* 0, or the error: that it is pending, by a handle that doesn't wait. */
uint32_t kz_ask_later(KzObject *object, const KzAsked *asked, KzAnswerTo to, const char *call);
/* Those by that handle, or the one with that structure, are cancelled. */
void kz_cancel_later(const KzObject *object, const KzOverlapped *overlapped);

#endif
