/* What a callback holds as it returns: a reference may go to its postoperation, and the host keeps the others. */
#include "manager/hand.h"

#include "core/client.h"
#include "core/op.h"
#include "core/state.h"
#include "manager/block.h"
#include "manager/context.h"
#include "manager/taken.h"

static uint64_t held_count(void)
{
    KazdrinCounts counts = {0};
    kazdrin_counts(&kz.manager, &(KazdrinEvent){.worker = kz_worker()}, &counts);
    return counts.held;
}

static bool held_at(uint32_t place, uint32_t *slot, uint32_t *generation)
{
    KazdrinTold told = {0};
    kazdrin_held_at(&kz.manager, &(KazdrinEvent){.len = place, .worker = kz_worker()}, &told);
    *slot = told.slot;
    *generation = told.generation;
    return told.has;
}

/* Which reference a completion takes along in the manager: that to the context that it points to, or else the last one that the callback holds. Others the host keeps. */
bool kz_sends(KzOp *op, PVOID completion, KazdrinEvent *event)
{
    event->number = (uintptr_t)completion;
    uint64_t count = completion ? held_count() : 0;
    KzContext *named = count ? kz_context_with(completion) : NULL;
    uint32_t slot, generation;
    for (uint32_t place = 0; place < count; place++) {
        if (!held_at(place, &slot, &generation))
            continue;
        if (named ? named->slot == slot && named->generation == generation : place + 1 == count) {
            event->slot = slot;
            event->generation = generation;
            event->flag = 1;
        }
    }
    if (event->flag && !named) {
        KzSent *sent = kz_block(op, sizeof *sent);
        *sent = (KzSent){op->sent, kz_body_of(event->slot, event->generation), kz_place_of_taken(kz_body_of(event->slot, event->generation))};
        op->sent = sent;
    }
    return event->flag;
}

/* Where a reference was left: in the preoperation that sent it beside something else, or here. */
static KzPlace left_in(PVOID body)
{
    for (KzSent **at = kz_me->place.op ? &kz_me->place.op->sent : NULL; at && *at; at = &(*at)->next)
        if ((*at)->body == body && (*at)->place.instance == kz_me->place.instance) {
            KzPlace place = (*at)->place;
            *at = (*at)->next;
            return place;
        }
    return kz_place_of_taken(body);
}

/* The callback is about to return: the host keeps what it still holds, but for the one reference that its completion takes along. */
void kz_keep_rest(const KazdrinEvent *sent)
{
    bool is_to_go = sent && sent->flag;
    uint64_t count = held_count();
    for (uint32_t at = 0; at < count; at++) {
        uint32_t slot, generation;
        if (!held_at(at, &slot, &generation))
            continue;
        if (is_to_go && sent->slot == slot && sent->generation == generation) {
            is_to_go = false;
            continue;
        }
        KzContext *context = kz_known_context(slot, generation);
        if (!context)
            continue;
        KzPlace place = left_in(context->body);
        kz_keep_reference(context, &place);
    }
}
