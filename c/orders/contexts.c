/* References of contexts: that of the object on which one is set, those in workers' hands, and those that completions carry. The archive tells of hands alone. */
#include "script.h"

enum { VOLUME, INSTANCE, STREAM, HANDLE, FILE_OF_STREAM };

uint64_t or_context_of(const OrScript *script, uint32_t slot, uint32_t generation)
{
    for (size_t at = script->contexts.count; at-- > 0;)
        if (script->contexts.at[at].slot == slot && script->contexts.at[at].generation == generation)
            return at;
    return OR_NONE;
}

/* A volume's context is its filter's, any other its instance's. */
void or_allocated(OrScript *script, const OrAsked *asked, const KazdrinTold *told)
{
    uint64_t instance = script->places[asked->worker].instance;
    OrContext context = {.slot = told->slot, .generation = told->generation, .kind = asked->event.kind};
    context.filter = script->instances.at[instance].filter;
    context.instance = context.kind == VOLUME ? OR_NONE : instance;
    *OR_ADD(script->contexts) = context;
}

/* The object of that kind of what the worker is in. */
static uint64_t object_of(const OrScript *script, const OrPlace *place, uint8_t kind)
{
    bool is_of_operation = place->operation != OR_NONE;
    uint64_t handle = is_of_operation ? script->operations.at[place->operation].handle : place->handle;
    if (kind == VOLUME)
        return script->instances.at[place->instance].volume;
    if (kind == INSTANCE)
        return place->instance;
    if (kind == HANDLE)
        return handle;
    return is_of_operation ? script->operations.at[place->operation].stream : script->handles.at[handle].stream;
}

static OrContext *holder(OrScript *script, const OrPlace *place, uint8_t kind)
{
    uint64_t object = object_of(script, place, kind), owner = kind == VOLUME ? OR_NONE : place->instance;
    for (size_t at = 0; at < script->contexts.count; at++) {
        OrContext *context = &script->contexts.at[at];
        bool is_own = context->instance == owner && context->filter == script->instances.at[place->instance].filter;
        if (is_own && context->is_linked && context->kind == kind && context->object == object)
            return context;
    }
    return NULL;
}

void or_linked(OrScript *script, const OrAsked *asked)
{
    const OrPlace *place = &script->places[asked->worker];
    OrContext *context = &script->contexts.at[asked->context], *old = holder(script, place, context->kind);
    if (old)
        old->is_linked = false;
    context->is_linked = true;
    context->object = object_of(script, place, context->kind);
}

void or_deleted(OrScript *script, const OrAsked *asked)
{
    OrContext *old = holder(script, &script->places[asked->worker], asked->event.kind);
    if (old)
        old->is_linked = false;
}

static bool is_gone(const OrScript *script, const OrContext *context)
{
    if (context->kind == HANDLE)
        return !script->handles.at[context->object].is_open;
    return context->kind >= STREAM && script->streams.at[context->object].is_gone;
}

/* What is set on what is gone loses its link. */
void or_swept(OrScript *script)
{
    for (size_t at = 0; at < script->contexts.count; at++)
        if (script->contexts.at[at].is_linked && is_gone(script, &script->contexts.at[at]))
            script->contexts.at[at].is_linked = false;
}

void or_unlink_of_instance(OrScript *script, uint64_t instance)
{
    for (size_t at = 0; at < script->contexts.count; at++)
        if (script->contexts.at[at].instance == instance)
            script->contexts.at[at].is_linked = false;
}

void or_unlink_of_filter(OrScript *script, uint64_t filter)
{
    for (size_t at = 0; at < script->contexts.count; at++)
        if (script->contexts.at[at].instance == OR_NONE && script->contexts.at[at].filter == filter)
            script->contexts.at[at].is_linked = false;
}

void or_unlink_on_volume(OrScript *script, uint64_t volume)
{
    for (size_t at = 0; at < script->contexts.count; at++)
        if (script->contexts.at[at].kind == VOLUME && script->contexts.at[at].object == volume)
            script->contexts.at[at].is_linked = false;
}

void or_carry(OrScript *script, uint64_t operation, uint64_t context)
{
    *OR_ADD(script->carried) = (OrCarried){operation, context};
}

/* A postoperation or a drain is given what its completion carries. */
void or_deliver(OrScript *script, uint64_t operation, const KazdrinTold *told)
{
    uint64_t context = told->has ? or_context_of(script, told->slot, told->generation) : OR_NONE;
    size_t at = 0;
    while (at < script->carried.count && !(script->carried.at[at].operation == operation && script->carried.at[at].context == context))
        at++;
    if (at < script->carried.count)
        script->carried.at[at] = script->carried.at[--script->carried.count];
}

/* How often a worker holds a context, or its last callback left it. */
static uint64_t times(OrScript *script, uint64_t worker, uint64_t context, bool is_left)
{
    uint64_t found = 0;
    KazdrinEvent event = {.worker = (uint8_t)worker};
    KazdrinTold told = {.has = 1};
    for (; told.has; event.len++) {
        uint32_t status = is_left ? kazdrin_left(&script->session, &event, &told) : kazdrin_held_at(&script->session, &event, &told);
        found += !status && told.has && or_context_of(script, told.slot, told.generation) == context;
    }
    return found;
}

uint64_t or_held_by(OrScript *script, uint64_t worker, uint64_t context)
{
    return times(script, worker, context, false);
}

uint64_t or_left_by(OrScript *script, uint64_t worker, uint64_t context)
{
    return times(script, worker, context, true);
}

static void count_hand(OrScript *script, uint8_t worker)
{
    KazdrinEvent event = {.worker = worker};
    KazdrinTold told = {.has = 1};
    for (; !kazdrin_held_at(&script->session, &event, &told) && told.has; event.len++)
        script->contexts.at[or_context_of(script, told.slot, told.generation)].references++;
}

static void count_links(OrScript *script)
{
    for (size_t at = 0; at < script->contexts.count; at++)
        script->contexts.at[at].references = script->contexts.at[at].is_linked;
}

static void count_carried(OrScript *script)
{
    for (size_t at = 0; at < script->carried.count; at++)
        script->contexts.at[script->carried.at[at].context].references++;
}

void or_count_references(OrScript *script)
{
    if (!script->contexts.count)
        return;
    count_links(script);
    count_carried(script);
    for (uint8_t worker = 0; worker < OR_WORKERS; worker++)
        if (script->places[worker].stage != OR_IDLE)
            count_hand(script, worker);
}

uint64_t or_leaks(OrScript *script)
{
    KazdrinEvent event = {0};
    KazdrinCounts counts = {0};
    kazdrin_counts(&script->session, &event, &counts);
    return counts.leaks;
}

uint64_t or_phase(OrScript *script, uint64_t instance)
{
    KazdrinEvent event = {.mode = KZP_OF_INSTANCE, .instance = (uint16_t)instance};
    KazdrinTold told = {0};
    kazdrin_phase(&script->session, &event, &told);
    return told.number;
}
