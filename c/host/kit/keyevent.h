/* Callbacks of the registry: CmRegisterCallbackEx. */
#ifndef KZ_KIT_KEYEVENT_H
#define KZ_KIT_KEYEVENT_H

#include "host.h"

/* What is about to be done with a key, as callbacks see it before and after. */
typedef struct {
    REG_NOTIFY_CLASS before, after;
    PVOID information;   /* the kit's structure for `before` */
    PVOID *call_context, *object_context; /* in that */
    struct KzKey *owner; /* the key whose contexts they see: of a create or an open its root; NULL: there is none */
    PVOID *object;       /* the key, which a create or an open has only behind it */
} KzKeyEvent;

/* Does it, unless a callback refuses it or has done it in its place: what is answered then. */
NTSTATUS kz_touch_key(const KzKeyEvent *event, NTSTATUS (*perform)(void *given), void *given);
/* A key that is closed: each callback that keeps a context beside it is told, and none is there any more. */
void kz_give_back_contexts(struct KzKey *key);

#endif
