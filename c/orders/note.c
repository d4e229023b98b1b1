/* What follows from an event that was made: where its worker is then, which ids there are, and what became of files, contexts and operations in flight. */
#include "script.h"

static void enter(OrScript *script, uint64_t worker, OrStage stage, uint64_t instance, uint64_t operation)
{
    script->places[worker] = (OrPlace){stage, instance, operation, OR_NONE, OR_NONE};
}

void or_note_attached(OrScript *script, const OrAsked *asked, uint64_t instance)
{
    OrInstance row = {.filter = (uint8_t)asked->filter, .volume = (uint8_t)asked->volume, .birth = OR_NONE};
    memcpy(row.altitude, asked->altitude.at, asked->altitude.length);
    row.plan.mode = KZV_WITH_CALLBACK;
    while (script->instances.count <= instance)
        *OR_ADD(script->instances) = row;
    enter(script, asked->event.worker, OR_IN_CALLBACK, instance, OR_NONE);
}

/* A callback that returns has returned, whatever the answer. */
void or_came_back(OrScript *script, const OrAsked *asked)
{
    OrPlace *place = &script->places[asked->event.worker];
    if (asked->event.event == KZE_SETUP_DONE && place->instance != OR_NONE && or_phase(script, place->instance) == KZP_INSTANCE_ATTACHED)
        script->instances.at[place->instance].birth = script->births++;
    if (asked->event.event == KZE_COMPLETE_RETURNED)
        or_unlink_of_instance(script, place->instance);
    if (asked->event.event == KZE_DRAIN_DONE)
        or_land(script, place->operation, place->instance);
    if (asked->event.event == KZE_CLEANED)
        script->contexts.at[place->context].life = OR_CLEANED;
    enter(script, asked->event.worker, OR_IDLE, OR_NONE, OR_NONE);
}

static void note_drain(OrScript *script, const OrAsked *asked, const KazdrinTold *told)
{
    if (!told->action)
        return;
    enter(script, asked->worker, OR_IN_EARLY_DRAIN, asked->instance, told->operation);
    for (size_t at = 0; at < script->flights.count; at++)
        if (script->flights.at[at].operation == told->operation && script->flights.at[at].instance == asked->instance)
            script->flights.at[at].is_owed = false;
    or_deliver(script, told->operation, told);
}

static void note_due(OrScript *script, const OrAsked *asked, const KazdrinTold *told)
{
    if (!told->has)
        return;
    enter(script, asked->worker, OR_IN_CLEANUP, OR_NONE, OR_NONE);
    script->places[asked->worker].context = or_context_of(script, told->slot, told->generation);
    script->contexts.at[script->places[asked->worker].context].life = OR_CLEANING;
}

/* The events by which a worker enters something. */
static void note_entered(OrScript *script, const OrAsked *asked, const KazdrinTold *told)
{
    switch (asked->event.event) {
    case KZE_ASK_DETACH:
    case KZE_START_TEARDOWN:
        enter(script, asked->worker, OR_IN_CALLBACK, asked->instance, OR_NONE);
        break;
    case KZE_ASK_UNLOAD:
        enter(script, asked->worker, OR_IN_CALLBACK, OR_NONE, OR_NONE);
        break;
    case KZE_COMPLETE_TEARDOWN:
        enter(script, asked->worker, OR_IN_COMPLETE, asked->instance, OR_NONE);
        break;
    case KZE_ENTER_ROUTINE:
        enter(script, asked->worker, OR_IN_CALLBACK, asked->instance, OR_NONE);
        script->places[asked->worker].handle = asked->handle;
        break;
    case KZE_DRAIN_TAKE:
        note_drain(script, asked, told);
        break;
    case KZE_TAKE_DUE:
        note_due(script, asked, told);
        break;
    }
}

static void note_contexts(OrScript *script, const OrAsked *asked, const KazdrinTold *told)
{
    switch (asked->event.event) {
    case KZE_ALLOCATE:
        or_allocated(script, asked, told);
        break;
    case KZE_SET:
        or_linked(script, asked);
        break;
    case KZE_DELETE:
        or_deleted(script, asked);
        break;
    case KZE_EMPTY_FILTER:
        or_unlink_of_filter(script, asked->filter);
        break;
    case KZE_EMPTY_VOLUME:
        or_unlink_on_volume(script, asked->volume);
        break;
    }
}

void or_note(OrScript *script, const OrAsked *asked, const KazdrinTold *told)
{
    uint32_t event = asked->event.event;
    if (event == KZE_REGISTER)
        *OR_ADD(script->filters) = (OrFilter){asked->event.pre != 0, asked->event.post != 0};
    else if (event == KZE_MOUNT)
        script->volumes++;
    else if ((event >= KZE_CREATE && event <= KZE_CLOSE) || (event >= KZE_RESTORE && event <= KZE_ON_VOLUME))
        or_begun(script, asked, told->operation);
    else if (event == KZE_DROP_HANDLE && told->has)
        or_dropped(script, told->handle);
    else if (event == KZE_RESUME_PRE)
        or_settled(script, asked->operation, script->places[asked->worker].instance, asked->event.mode);
    else if (event == KZE_RESUME_POST)
        or_land(script, asked->operation, script->places[asked->worker].instance);
    note_entered(script, asked, told);
    note_contexts(script, asked, told);
}
