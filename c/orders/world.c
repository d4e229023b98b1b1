/* One run: the set-up, and then a line of one thread after the other. */
#include "world.h"

OrText or_verb(const OrWorld *world, OrText operation)
{
    uint64_t number;
    return or_id(operation, 'o', &number) && number < world->verbs.count ? world->verbs.at[number] : or_text("");
}

/* The word that began an operation stays: it is one of the scenario's. */
static void note(OrWorld *world, OrText origin, OrText answer)
{
    uint64_t operation;
    OrText rest = answer, ok = or_cut(&rest, ' '), id = or_cut(&rest, ' ');
    if (or_is(ok, "ok") && or_id(id, 'o', &operation))
        while (world->verbs.count <= operation)
            *OR_ADD(world->verbs) = or_cut(&origin, ' ');
    world->misused += or_is(answer, "no 25");
}

static bool begins(OrText text, const char *with)
{
    return text.length >= strlen(with) && !memcmp(text.at, with, strlen(with));
}

static void set_up(OrWorld *world, OrLine line)
{
    OrText answer = or_run(&world->script, line.text);
    if (begins(answer, "no "))
        or_wrong(line.number, "`%.*s` of the set-up answers `%.*s`", (int)line.text.length, line.text.at, (int)answer.length, answer.at);
    note(world, line.text, answer);
}

static void begin_threads(OrWorld *world, const OrScenario *scenario)
{
    world->threads = realloc(world->threads, scenario->threads.count * sizeof *world->threads);
    if (!world->threads)
        or_no_memory();
    for (size_t at = 0; at < scenario->threads.count; at++)
        or_begin_thread(&world->threads[at], &scenario->threads.at[at]);
}

void or_begin_world(OrWorld *world, const OrScenario *scenario)
{
    world->scenario = scenario;
    world->verbs.count = world->ran.count = world->misused = 0;
    or_open(&world->script);
    for (size_t at = 0; at < scenario->setup.count; at++)
        set_up(world, scenario->setup.at[at]);
    begin_threads(world, scenario);
}

void or_end_world(OrWorld *world)
{
    or_close(&world->script);
}

/* What a line is answered that a thread can't make yet. */
static bool must_wait(OrText line, OrText answer)
{
    return begins(answer, "no 34") || or_is(answer, "held") || (begins(line, "next ") && or_is(answer, "no 30")) || (begins(line, "due ") && or_is(answer, "none"));
}

static bool is_unread(OrText answer)
{
    return or_is(answer, "no 32") || or_is(answer, "no 2") || or_is(answer, "no 3") || or_is(answer, "no 15");
}

OrText or_ask(OrWorld *world, uint32_t thread, OrText *line, char *room)
{
    *line = or_line_of(world, &world->threads[thread], room, OR_LINE_ROOM);
    return or_run(&world->script, *line);
}

bool or_go_on(OrWorld *world, uint32_t place)
{
    char room[OR_LINE_ROOM];
    OrThread *thread = &world->threads[place];
    OrText line, answer;
    if (thread->turn == OR_OVER)
        return false;
    answer = or_ask(world, place, &line, room);
    if (must_wait(line, answer))
        return false;
    /* What stands for nothing yet, in this order, can't be read either. */
    if (is_unread(answer) && !memchr(line.at, '$', line.length))
        or_wrong(or_number_of(thread), "`%.*s` of %.*s can't be read: `%.*s`", (int)line.length, line.at, (int)thread->routine->name.length, thread->routine->name.at, (int)answer.length, answer.at);
    note(world, thread->turn == OR_CALLBACK ? thread->callback->lines[thread->in_callback].text : thread->routine->lines[thread->at].text, answer);
    *OR_ADD(world->ran) = place;
    or_took(world, thread, line, answer);
    return true;
}

/* Nobody waits for the end of one that repeats. */
bool or_waits(const OrWorld *world, uint32_t thread)
{
    return world->threads[thread].turn != OR_OVER && !world->threads[thread].routine->repeats;
}

static void add_instances(OrScript *script, OrKey *key)
{
    for (size_t at = 0; at < script->instances.count; at++) {
        uint64_t row[] = {or_phase(script, at), script->instances.at[at].flight};
        or_add_key(key, row, sizeof row);
    }
}

static void add_contexts(OrScript *script, OrKey *key)
{
    or_count_references(script);
    for (size_t at = 0; at < script->contexts.count; at++) {
        const OrContext *context = &script->contexts.at[at];
        uint64_t row[] = {context->references, context->references ? OR_LIVE : context->life};
        or_add_key(key, row, sizeof row);
    }
}

/* A state: what each thread was answered, and what a script can be asked of instances and contexts. */
OrKey or_key(OrWorld *world)
{
    OrKey key = {0, 0};
    uint64_t leaks = or_leaks(&world->script);
    for (size_t at = 0; at < world->scenario->threads.count; at++)
        or_add_key(&key, &world->threads[at].seen, sizeof(OrKey));
    add_instances(&world->script, &key);
    add_contexts(&world->script, &key);
    or_add_key(&key, &leaks, sizeof leaks);
    return key;
}
