/* Reads a scenario. What can't be read is refused with its line. */
#include "scenario.h"

static void *copied(const void *items, size_t size)
{
    void *copy = malloc(size);
    if (!copy)
        or_no_memory();
    return memcpy(copy, items, size);
}

/* The lines behind a colon. One without a word, or that a script takes for a comment, would never be answered. */
static OrLine *read_lines(unsigned number, OrText rest, size_t *count)
{
    OR_LIST(OrLine) lines = {0};
    bool is_more = true;
    while (is_more) {
        is_more = memchr(rest.at, ';', rest.length) != NULL;
        OrText line = or_stripped(or_cut(&rest, ';'));
        if (!line.length || *line.at == '#')
            or_wrong(number, "can't be read: there is no command before or behind a `;` or `:`");
        *OR_ADD(lines) = (OrLine){number, line};
    }
    *count = lines.count;
    OrLine *kept = copied(lines.at, lines.count * sizeof *lines.at);
    free(lines.at);
    return kept;
}

static size_t split(OrText head, OrText *words, size_t most)
{
    size_t count = 0;
    while (or_stripped(head).length && count < most)
        words[count++] = or_word(&head);
    return count + (or_stripped(head).length > 0);
}

static void take_thread(OrScenario *scenario, unsigned number, const OrText *words, size_t count, OrText rest)
{
    if (count != 2)
        or_wrong(number, "can't be read: `%.*s` wants a name and a colon", (int)words[0].length, words[0].at);
    OrRoutine thread = {.name = words[1], .repeats = or_is(words[0], "repeat")};
    thread.lines = read_lines(number, rest, &thread.count);
    *OR_ADD(scenario->threads) = thread;
}

/* One that stands twice counts as it stands last. */
static void take_callback(OrScenario *scenario, unsigned number, const OrText *words, size_t count, OrText rest)
{
    if (count < 3 || count > 4 || !(or_is(words[2], "pre") || or_is(words[2], "post")))
        or_wrong(number, "can't be read: `callback` wants an instance, pre or post, and a colon");
    OrCallback callback = {.instance = words[1], .kind = words[2], .verb = count == 4 ? words[3] : (OrText){NULL, 0}};
    callback.lines = read_lines(number, rest, &callback.count);
    *OR_ADD(scenario->callbacks) = callback;
}

static void take_setup(OrScenario *scenario, unsigned number, OrText line)
{
    OrText rest = line, word = or_cut(&rest, ' '), instance = or_cut(&rest, ' ');
    *OR_ADD(scenario->setup) = (OrLine){number, line};
    if (or_is(word, "plan") && rest.length)
        *OR_ADD(scenario->plans) = (OrPlan){instance, rest};
}

static void take(OrScenario *scenario, unsigned number, OrText line)
{
    OrText words[5], rest = line, head = or_cut(&rest, ':');
    size_t count = split(head, words, 4);
    if (!count)
        or_wrong(number, "can't be read: nothing stands before the colon");
    if (or_is(words[0], "thread") || or_is(words[0], "repeat"))
        take_thread(scenario, number, words, count, rest);
    else if (or_is(words[0], "callback"))
        take_callback(scenario, number, words, count, rest);
    else
        take_setup(scenario, number, line);
}

void or_read_scenario(OrScenario *scenario, OrText text)
{
    for (unsigned number = 1; text.length; number++) {
        OrText line = or_stripped(or_cut(&text, '\n'));
        if (line.length && *line.at != '#')
            take(scenario, number, line);
    }
    if (!scenario->threads.count)
        or_wrong(0, "there is no line `thread NAME: LINE; ..`");
}

static const OrCallback *found(const OrScenario *scenario, OrText instance, const char *kind, OrText verb)
{
    for (size_t at = scenario->callbacks.count; at-- > 0;) {
        const OrCallback *callback = &scenario->callbacks.at[at];
        if (or_same(callback->instance, instance) && or_is(callback->kind, kind) && or_same(callback->verb, verb))
            return callback;
    }
    return NULL;
}

const OrCallback *or_callback(const OrScenario *scenario, OrText instance, const char *kind, OrText verb)
{
    const OrCallback *own = found(scenario, instance, kind, verb);
    return own ? own : found(scenario, instance, kind, or_text(""));
}

OrText or_plan(const OrScenario *scenario, OrText instance)
{
    for (size_t at = scenario->plans.count; at-- > 0;)
        if (or_same(scenario->plans.at[at].instance, instance))
            return scenario->plans.at[at].answer;
    return or_text("with");
}
