/* The host's one state, and its calls of the manager. */
#include "core/state.h"

#include "core/client.h"

KzHost kz;

uint8_t kz_worker(void)
{
    return kz_me->place.worker;
}

static KzTold ask(uint8_t worker, KazdrinEvent event, const void *bytes, size_t length, uint8_t *room, size_t size)
{
    KzTold answer = {0};
    event.worker = worker;
    answer.status = kazdrin_step(&kz.manager, &event, bytes, length, &answer.told, room, size);
    if (answer.status == KZS_BUSY)
        kz_note_busy(&event, answer.told.number);
    return answer;
}

KzTold kz_event(uint8_t worker, KazdrinEvent event)
{
    uint8_t none;
    return ask(worker, event, "", 0, &none, 0);
}

KzTold kz_event_with(uint8_t worker, KazdrinEvent event, const void *bytes, size_t length)
{
    uint8_t none;
    return ask(worker, event, bytes, length, &none, 0);
}

KzTold kz_event_into(uint8_t worker, KazdrinEvent event, uint8_t *room, size_t size)
{
    return ask(worker, event, "", 0, room, size);
}

enum { HELPERS = 32, SPARE = 12 };

/* What stays with a helper leaves enough of them for what comes and goes. */
bool kz_has_helpers(void)
{
    return __builtin_popcount(kz.helpers) < HELPERS - SPARE;
}

/* Another worker of the session, which is idle: it cleans up, or is in a callback, while the current one is in its own. */
uint8_t kz_helper(void)
{
    uint8_t place = 0;
    while (place < HELPERS - 1 && kz.helpers >> place & 1)
        place++;
    kz.helpers |= (uint32_t)1 << place;
    return (uint8_t)(16 + place);
}

void kz_helped(uint8_t worker)
{
    kz.helpers &= ~((uint32_t)1 << (worker - 16));
}

void kz_forget_busy(void)
{
    kz_me->busy = (KazdrinEvent){0};
    kz_me->busy_number = 0;
}

/* One that is tried again has the newer number. */
void kz_note_busy(const KazdrinEvent *event, uint64_t number)
{
    const KazdrinEvent *first = &kz_me->busy;
    bool is_same = first->event == event->event && first->instance == event->instance && first->filter == event->filter && first->volume == event->volume;
    if (first->event && !is_same)
        return;
    kz_me->busy = *event;
    kz_me->busy_number = number;
}
