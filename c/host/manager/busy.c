/* What is in the way of a detach, an unload or a dismount: the manager says how many, and the host names those that it knows. */
#include "manager/busy.h"

#include "core/client.h"
#include "core/op.h"
#include "core/state.h"
#include "manager/context.h"
#include "manager/instance.h"
#include "manager/operation.h"
#include "manager/post.h"

enum { NAMED = 4 };

typedef struct {
    char *text;
    size_t used, size;
    unsigned count;
} List;

/* The first few; after them the number says how many more there are. */
static bool begins(List *list)
{
    if (++list->count > NAMED)
        return false;
    list->used += (size_t)snprintf(list->text + list->used, list->size - list->used, list->count == 1 ? " (" : "; ");
    return list->used < list->size;
}

static bool is_owed(const KzOp *op, PFLT_INSTANCE instance)
{
    for (unsigned at = 0; at < op->owed_count; at++)
        if (op->owed[at].instance == instance)
            return true;
    return false;
}

static void name_operation(List *list, const KzOp *op)
{
    if (!begins(list))
        return;
    list->used += (size_t)snprintf(list->text + list->used, list->size - list->used, KZ_OPERATION, (unsigned long long)op->id);
    if (kz_is_held(op) && list->used < list->size)
        list->used += (size_t)snprintf(list->text + list->used, list->size - list->used, " that instance %u holds", op->holder->id);
}

static void name_operations(List *list, PFLT_INSTANCE instance, PFLT_VOLUME volume)
{
    for (const KzOp *op = kz.ops; op; op = op->next)
        if (instance ? is_owed(op, instance) : op->volume == volume)
            name_operation(list, op);
}

static void name_instances(List *list, const KazdrinEvent *event)
{
    for (size_t at = 0; at < kz.instances_count; at++) {
        PFLT_INSTANCE one = kz.instances[at];
        bool is_its = event->event == KZE_EMPTY_FILTER ? one->filter->id == event->filter : one->volume->id == event->volume;
        if (is_its && kz_phase(one) != KZP_INSTANCE_DETACHED && begins(list))
            list->used += (size_t)snprintf(list->text + list->used, list->size - list->used, "instance %u", one->id);
    }
}

static const char *words_of(const KazdrinEvent *event)
{
    switch (event->event) {
    case KZE_COMPLETE_TEARDOWN:
        return "operations in flight at instance";
    case KZE_FINISH:
        return "contexts to be cleaned up of instance";
    case KZE_EMPTY_FILTER:
        return "instances left of filter";
    case KZE_FINISH_FILTER:
        return "volume contexts to be cleaned up of filter";
    case KZE_START_DISMOUNT:
        return "operations that aren't over on volume";
    case KZE_EMPTY_VOLUME:
        return "handles and instances left on volume";
    default:
        return "volume contexts to be cleaned up on volume";
    }
}

static unsigned number_of(const KazdrinEvent *event)
{
    switch (event->event) {
    case KZE_COMPLETE_TEARDOWN:
    case KZE_FINISH:
        return event->instance;
    case KZE_EMPTY_FILTER:
    case KZE_FINISH_FILTER:
        return event->filter;
    default:
        return event->volume;
    }
}

/* How many there are, and the first few by name. */
const char *kz_busy_text(char *room, size_t size)
{
    const KazdrinEvent *event = &kz_me->busy;
    if (!event->event) {
        snprintf(room, size, "what another client goes on with");
        return room;
    }
    List list = {.text = room, .size = size};
    list.used = (size_t)snprintf(room, size, "%s %u: %llu", words_of(event), number_of(event), (unsigned long long)kz_me->busy_number);
    if (event->event == KZE_COMPLETE_TEARDOWN && event->instance < kz.instances_count)
        name_operations(&list, kz.instances[event->instance], NULL);
    else if (event->event == KZE_START_DISMOUNT && event->volume < kz.volumes_count)
        name_operations(&list, NULL, kz.volumes[event->volume]);
    else if (event->event == KZE_EMPTY_FILTER || event->event == KZE_EMPTY_VOLUME)
        name_instances(&list, event);
    if (list.count)
        snprintf(room + list.used, size - list.used, ")");
    return room;
}

/* ---- Until it is over. */
typedef struct {
    PFLT_INSTANCE instance; /* whose contexts are left; NULL where something else is in the way */
    uint64_t changes, cleaned;
} Until;

/* Nothing but what is in flight at the instance holds the end of its teardown up. */
static bool is_empty(void *instance)
{
    return !((PFLT_INSTANCE)instance)->in_flight || kz_has_waiting(instance);
}

static bool is_free(void *busy)
{
    const Until *one = busy;
    return one->instance ? kz_cleaned() != one->cleaned : kz.changes != one->changes;
}

static bool wait_until_free(Until *busy)
{
    if (busy->instance)
        return kz_wait(is_free, busy, "the contexts of instance %u to be cleaned up", busy->instance->id);
    kz_me->is_known = false; /* whatever changes may end that */
    return kz_wait(is_free, busy, "what goes on still to end");
}

static uint32_t ask(KazdrinEvent event, PFLT_INSTANCE empties, Until *busy)
{
    if (empties)
        kz_uses_teardown(empties, false);
    else if (busy->instance)
        kz_uses_teardown(busy->instance, true);
    busy->changes = kz.changes;
    busy->cleaned = kz_cleaned();
    return kz_event(kz_worker(), event).status;
}

static bool goes_on(PFLT_INSTANCE empties, Until *busy)
{
    if (!empties || is_empty(empties))
        return wait_until_free(busy);
    return kz_wait(is_empty, empties, "what is in flight at instance %u to end", empties->id);
}

/* An event that waits for what is in flight, or for contexts: others may end that meanwhile. */
uint32_t kz_until_free(const char *name, KazdrinEvent event, PFLT_INSTANCE instance)
{
    char text[64];
    Until busy = {.instance = event.event == KZE_FINISH ? kz.instances[event.instance] : NULL};
    snprintf(text, sizeof text, "what is in flight at instance %u to end", instance ? instance->id : 0);
    if (instance)
        kz_pause_until(name, is_empty, instance, text);
    else
        kz_pause(name);
    uint32_t status;
    do {
        while (instance && kz_has_waiting(instance) && kz_drain_next(instance))
            ; /* it came to wait after the teardown had drained */
        status = ask(event, instance, &busy);
    } while (status == KZS_BUSY && kz_has_others() && goes_on(instance, &busy));
    return status;
}
