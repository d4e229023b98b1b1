/* Which call took a reference to a context: that is known as long as a callback holds it. */
#include "manager/taken.h"

#include "core/client.h"

void kz_note_taken(const void *body)
{
    unsigned at = 0;
    while (at + 1 < KZ_TAKEN && kz_me->taken[at].body)
        at++;
    kz_me->taken[at] = (KzTaken){body, kz_me->place};
}

/* That of the callback that runs, or of another one of its operation; NULL if it isn't known. */
static KzTaken *find_taken(const void *body)
{
    KzTaken *other = NULL;
    for (unsigned at = KZ_TAKEN; at-- > 0;) {
        KzTaken *one = &kz_me->taken[at];
        if (one->body != body)
            continue;
        if (one->place.number == kz_me->place.number)
            return one;
        if (!other && one->place.op && one->place.op == kz_me->place.op && one->place.op_id == kz_me->place.op_id)
            other = one;
    }
    return other;
}

void kz_forget_taken(const void *body)
{
    KzTaken *one = find_taken(body);
    if (one)
        *one = (KzTaken){0};
}

/* The callback that runs, with the call that took the reference which it leaves. */
KzPlace kz_place_of_taken(const void *body)
{
    KzPlace place = kz_me->place;
    KzTaken *one = find_taken(body);
    if (!one)
        return place;
    place.call = one->place.call;
    place.from = one->place.from;
    memcpy(place.callers, one->place.callers, sizeof place.callers);
    *one = (KzTaken){0};
    return place;
}
