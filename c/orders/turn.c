/* The ways of operations: a worker takes a step, and comes back from what it is in. */
#include "script.h"

static void refuse_or_ok(OrScript *script, uint32_t status)
{
    if (status)
        or_refuse(script, status, 0);
    else
        or_say(script, "ok");
}

static void note_step(OrScript *script, const OrAsked *asked, const KazdrinTold *told)
{
    static const OrStage stages[] = {[KZA_PRE] = OR_IN_PRE, [KZA_BASE] = OR_IN_BASE, [KZA_POST] = OR_IN_POST, [KZA_DRAIN] = OR_IN_DRAIN};
    if (told->action <= KZA_DRAIN)
        script->places[asked->worker] = (OrPlace){stages[told->action], told->action == KZA_BASE ? OR_NONE : told->instance, asked->operation, OR_NONE, OR_NONE};
    if (told->action == KZA_PRE)
        or_fly(script, asked->operation, told->instance, false);
    if (told->action == KZA_MOVED)
        or_moved(script, asked->operation);
    for (size_t at = 0; (told->action == KZA_POST || told->action == KZA_DRAIN) && at < script->flights.count; at++)
        if (script->flights.at[at].operation == asked->operation && script->flights.at[at].instance == told->instance)
            script->flights.at[at].is_owed = false;
    if (told->action == KZA_POST || told->action == KZA_DRAIN)
        or_deliver(script, asked->operation, told);
}

static uint32_t step(OrScript *script, const OrAsked *asked, KazdrinTold *told)
{
    uint32_t status = kazdrin_next(&script->session, &asked->event, told);
    if (!status)
        note_step(script, asked, told);
    return status;
}

void or_next(OrScript *script, OrAsked *asked)
{
    static const char *const words[] = {"pre", "base", "post", "drain", "moved", "held", "done"};
    KazdrinTold told = {0};
    uint32_t status = step(script, asked, &told);
    if (status)
        or_refuse(script, status, 0);
    else if (told.action == KZA_PRE || told.action == KZA_POST || told.action == KZA_DRAIN)
        or_say(script, "%s i%u", words[told.action], told.instance);
    else
        or_say(script, "%s", words[told.action]);
}

/* A context goes along where the worker holds one reference less than it had, and none was left behind for it. */
static uint32_t came_from_pre(OrScript *script, const OrAsked *asked)
{
    OrPlace place = script->places[asked->worker];
    bool is_sent = place.stage == OR_IN_PRE && asked->context != OR_NONE;
    uint64_t held = is_sent ? or_held_by(script, asked->worker, asked->context) : 0;
    uint32_t status = kazdrin_pre_returned(&script->session, &asked->event);
    if (status == KZS_WRONG_STEP)
        return status;
    if (held && or_left_by(script, asked->worker, asked->context) < held)
        or_carry(script, place.operation, asked->context);
    or_settled(script, place.operation, place.instance, asked->event.mode);
    or_came_back(script, asked);
    return status;
}

void or_pre(OrScript *script, OrAsked *asked)
{
    refuse_or_ok(script, came_from_pre(script, asked));
}

static bool is_failing(const OrScript *script, uint64_t call)
{
    for (size_t at = 0; at < script->failing.count; at++)
        if (script->failing.at[at] == call)
            return true;
    return false;
}

/* The devices of all volumes are counted together, and a call that is to fail changes nothing. */
static uint32_t came_from_base(OrScript *script, const OrAsked *asked)
{
    OrPlace place = script->places[asked->worker];
    KazdrinEvent event = {.worker = asked->event.worker, .status = KZS_DEVICE_FAULT};
    bool fails = is_failing(script, script->calls + 1);
    uint32_t status = fails ? kazdrin_based(&script->session, &event, (const uint8_t *)"", 0) : kazdrin_base(&script->session, &asked->event);
    if (status || place.stage != OR_IN_BASE)
        return status;
    script->calls++;
    script->failures += fails;
    or_answered(script, place.operation, script->operations.at[place.operation].is_creating && or_is_open(script, script->handles.count));
    or_came_back(script, asked);
    return status;
}

void or_base(OrScript *script, OrAsked *asked)
{
    refuse_or_ok(script, came_from_base(script, asked));
}

static uint32_t came_from_post(OrScript *script, const OrAsked *asked)
{
    OrPlace place = script->places[asked->worker];
    uint32_t status = kazdrin_post_returned(&script->session, &asked->event);
    if (status == KZS_WRONG_STEP)
        return status;
    if (asked->event.mode == KZV_FINISHED || place.stage == OR_IN_DRAIN)
        or_land(script, place.operation, place.instance);
    or_came_back(script, asked);
    return status;
}

void or_post(OrScript *script, OrAsked *asked)
{
    refuse_or_ok(script, came_from_post(script, asked));
}

void or_collect(OrScript *script, OrAsked *asked)
{
    KazdrinTold told = {0};
    OrAsked collect = {.event = {.event = KZE_COLLECT, .operation = asked->operation}};
    uint32_t status = or_step(script, &collect, &told);
    if (status) {
        or_refuse(script, status, told.number);
        return;
    }
    or_say(script, "reply %u %llu ", told.status, (unsigned long long)told.information);
    or_say_bytes(script, told.length);
}

/* What a worker was given by a step of `go` is answered at once. */
static uint32_t answered(OrScript *script, OrAsked *asked, const KazdrinTold *told)
{
    OrAsked answer = {.event = {.worker = asked->event.worker}, .worker = asked->worker, .context = OR_NONE};
    if (told->action == KZA_BASE)
        return came_from_base(script, &answer);
    if (told->action != KZA_PRE)
        return told->action == KZA_MOVED ? 0 : came_from_post(script, &answer);
    answer.event = script->instances.at[told->instance].plan;
    answer.event.worker = asked->event.worker;
    return came_from_pre(script, &answer);
}

/* Of what it prints the last line is kept. */
void or_go(OrScript *script, OrAsked *asked)
{
    enum { TURNS = 66 };
    KazdrinTold told = {0};
    uint32_t status = 0;
    int turn = 0;
    do {
        status = step(script, asked, &told);
        if (!status && told.action < KZA_HELD)
            status = answered(script, asked, &told);
    } while (!status && told.action < KZA_HELD && ++turn < TURNS);
    if (status || turn == TURNS)
        or_refuse(script, status ? status : KZS_WRONG_STEP, 0);
    else if (told.action == KZA_HELD)
        or_say(script, "held");
    else
        or_collect(script, asked);
}
