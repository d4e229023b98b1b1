/* Which operations are in flight at which instances, and what a verdict makes of that. The archive tells it of a stopping instance alone, so it is followed here. */
#include "script.h"

void or_fly(OrScript *script, uint64_t operation, uint64_t instance, bool is_owed)
{
    *OR_ADD(script->flights) = (OrFlight){operation, instance, is_owed};
    script->instances.at[instance].flight++;
    script->operations.at[operation].last = instance;
}

static OrFlight *found(OrScript *script, uint64_t operation, uint64_t instance)
{
    for (size_t at = script->flights.count; at-- > 0;)
        if (script->flights.at[at].operation == operation && script->flights.at[at].instance == instance)
            return &script->flights.at[at];
    return NULL;
}

static void taken(OrScript *script, OrFlight *flight)
{
    script->instances.at[flight->instance].flight--;
    memmove(flight, flight + 1, (size_t)(script->flights.at + --script->flights.count - flight) * sizeof *flight);
}

void or_land(OrScript *script, uint64_t operation, uint64_t instance)
{
    OrFlight *flight = found(script, operation, instance);
    if (flight)
        taken(script, flight);
}

/* Only what asks for its postoperation, where the filter has one, and what is held stays in flight. */
void or_settled(OrScript *script, uint64_t operation, uint64_t instance, uint8_t verdict)
{
    OrFlight *flight = found(script, operation, instance);
    if (!flight || verdict == KZV_PENDING)
        return;
    flight->is_owed = verdict <= KZV_SYNCHRONIZE && script->filters.at[script->instances.at[instance].filter].has_post;
    if (!flight->is_owed)
        taken(script, flight);
    if (verdict == KZV_COMPLETE)
        or_completed(script, operation);
}

/* Whether an operation on its way down visits the instance still. */
static bool lies_below(const OrScript *script, const OrOperation *operation, uint64_t instance)
{
    const OrInstance *row = &script->instances.at[instance];
    bool is_lower = operation->last == OR_NONE || or_compared(or_text(row->altitude), or_text(script->instances.at[operation->last].altitude)) < 0;
    KazdrinEvent event = {.mode = KZP_OF_INSTANCE, .instance = (uint16_t)instance};
    KazdrinTold told = {0};
    return is_lower && row->volume == operation->volume && row->birth < operation->born && !kazdrin_phase((Kazdrin *)&script->session, &event, &told) && told.has
        && told.number == KZP_INSTANCE_ATTACHED;
}

static uint64_t next_below(const OrScript *script, const OrOperation *operation)
{
    uint64_t highest = OR_NONE;
    for (uint64_t at = 0; at < script->instances.count; at++)
        if (lies_below(script, operation, at)
            && (highest == OR_NONE || or_compared(or_text(script->instances.at[at].altitude), or_text(script->instances.at[highest].altitude)) > 0))
            highest = at;
    return highest;
}

/* `moved`, which comes on the way down alone: an instance without a preoperation was passed, or else the manager answered for the base. */
void or_moved(OrScript *script, uint64_t operation)
{
    uint64_t instance = next_below(script, &script->operations.at[operation]);
    if (instance != OR_NONE)
        or_fly(script, operation, instance, true);
    else
        or_answered(script, operation, false);
}
