/* Which choice is taken: by the search's path, by a schedule that is played again, or by a seed. Why the options that the path leaves out are missed by nobody stands in order.c. */
#include "explore.h"

#include <stdlib.h>

/* ---- The search: it follows the path, takes the first option beyond it, and appends that. */
bool ex_is_own(void)
{
    return ex->search.shards < 2 || ex_mixed(ex->path.hash) % ex->search.shards == ex->search.shard;
}

/* The first deviations from the usual order say whose part a run is. Once they are known, another's part isn't run. */
static void note_deviation(unsigned taken)
{
    if (!taken || ex->path.deviations++ >= DEVIATIONS)
        return;
    ex->path.hash = ex_mixed(ex->path.hash * 1000003 + ex->path.depth * 16 + taken);
    if (ex->path.deviations == DEVIATIONS && !ex_is_own()) {
        ex->path.length = ex->path.depth;
        siglongjmp(ex->run.out, 1);
    }
}

/* What follows is searched elsewhere. */
void ex_give_up(void)
{
    ex->run.is_given_up = true;
    siglongjmp(ex->run.out, 1);
}

/* The option that the path has for this choice; a choice that it doesn't have yet is appended with its first. Its first client may stay where it goes on without a preemption. */
static unsigned follow(unsigned count, bool is_switch, const int *clients, bool may_stay)
{
    if (ex->path.depth == PATH) {
        ex_found(STUCK, "ENDLESS: the run has too many choices");
        siglongjmp(ex->run.out, 1);
    }
    if (ex->path.goes_to && ex->path.depth == ex->path.length)
        return 0; /* what comes behind is in the path already */
    Node *node = &ex->path.nodes[ex->path.depth];
    uint64_t stands = ex_stands_hash();
    if (ex->path.depth == ex->path.length && is_switch && ex->search.is_reduced && ex_is_known(may_stay ? clients[0] : 0))
        ex_give_up();
    if (ex->path.depth == ex->path.length) {
        *node = (Node){.count = (uint8_t)count, .is_switch = is_switch, .key = is_switch && ex->search.is_reduced ? node->key : 0, .able = ex->run.able, .place = (uint32_t)ex->schedule.length};
        node->stands = stands;
        if (is_switch && ex->search.is_thinned && !ex_begin_choice(node, clients, may_stay))
            ex_give_up();
        ex->path.length++;
    } else if (node->count != count || (node->stands && node->stands != stands)) {
        ex_stop_at("LIMIT: the same schedule came to another choice: the driver goes by what this doesn't put back, as by the processor's clock or by random numbers", "the driver doesn't repeat itself");
    }
    if (is_switch && ex->search.is_thinned)
        ex_note_choice(node, clients);
    ex->path.depth++;
    note_deviation(node->taken - node->first);
    return node->taken;
}

/* To the next path; false if there is none. */
bool ex_advance(void)
{
    while (ex->path.length > 0) {
        Node *node = &ex->path.nodes[ex->path.length - 1];
        node->taken = (uint8_t)ex_next_option(node);
        if (node->taken < node->count)
            return true;
        ex->path.length--;
    }
    return false;
}

/* ---- A schedule in words: a*5 d*13 fail a b*2. What is no client in it is a sign. */
static const struct {
    Asks asks;
    uint8_t sign;
    const char *name;
} signs[] = {{ANSWER_FAIL, FAIL, "fail"}, {ANSWER_INSIDE, INSIDE, "inside"}, {ANSWER_LATE, LATE, "late"}, {ANSWER_SEEN, SEEN, "seen"}, {ANSWER_CHANGED, CHANGED, "change"}};
enum { SIGNS = sizeof signs / sizeof signs[0] };

uint8_t ex_sign_of(Asks asks)
{
    for (size_t at = 0; at < SIGNS; at++)
        if (signs[at].asks == asks)
            return signs[at].sign;
    return 0;
}

const char *ex_sign_name(uint8_t sign)
{
    for (size_t at = 0; at < SIGNS; at++)
        if (signs[at].sign == sign)
            return signs[at].name;
    return NULL;
}

uint8_t ex_sign_named(const char *name, size_t length)
{
    for (size_t at = 0; at < SIGNS; at++)
        if (strlen(signs[at].name) == length && strncmp(signs[at].name, name, length) == 0)
            return signs[at].sign;
    return 0;
}

static bool word_is(const char *word, size_t length, const char *name)
{
    return strlen(name) == length && strncmp(word, name, length) == 0;
}

/* The word at which it stands; its text has no count, and `count` is how often it is still to be taken. */
static const char *word_now(size_t *length, unsigned *count)
{
    const char *at = ex->search.replay + strspn(ex->search.replay, " ");
    *length = strcspn(at, "* ");
    *count = at[*length] == '*' ? (unsigned)strtoul(at + *length + 1, NULL, 10) : 1;
    return at;
}

static void take_word(const char *word)
{
    static unsigned taken;
    size_t length;
    unsigned count;
    word_now(&length, &count);
    if (++taken < count)
        return;
    taken = 0;
    ex->search.replay = word + strcspn(word, " ");
}

static unsigned play_again(unsigned count, Asks asks, const int *clients)
{
    size_t length;
    unsigned times;
    const char *word = word_now(&length, &times);
    if (!*word)
        return 0;
    if (asks != SWITCH) {
        bool is_it = ex_sign_named(word, length) == ex_sign_of(asks);
        if (is_it)
            take_word(word);
        return is_it;
    }
    for (unsigned at = 0; at < count; at++)
        if (word_is(word, length, ex_runners[clients[at]].name)) {
            take_word(word);
            return at;
        }
    fprintf(stderr, "this schedule isn't one of the scenario's: at '%s' that client can't go on\n", word);
    exit(2);
}

/* ---- By a seed: a coin at each choice, or priorities. */
unsigned ex_draw(unsigned count)
{
    ex->path.random ^= ex->path.random << 13;
    ex->path.random ^= ex->path.random >> 7;
    ex->path.random ^= ex->path.random << 17;
    return (unsigned)((ex->path.random >> 20) % count);
}

/* Of each client at random; and the steps at which the one that runs falls behind all others, of those that a run in order has. */
void ex_draw_priorities(void)
{
    for (int client = 0; client <= RUNNERS; client++)
        ex->path.priorities[client] = DEPTH + 1 + ex_draw(1U << 30);
    for (unsigned at = 0; at + 1 < ex->search.pct; at++)
        ex->path.changes[at] = 1 + ex_draw(ex->path.usual_steps);
    ex->path.changed = 0;
}

static void change_priorities(void)
{
    for (unsigned at = 0; at + 1 < ex->search.pct; at++)
        if (ex->path.changes[at] <= ex->run.steps && !(ex->path.changed >> at & 1)) {
            ex->path.changed |= 1U << at;
            ex->path.priorities[ex->run.current] = DEPTH - at;
        }
}

static unsigned by_priority(unsigned count, const int *clients)
{
    unsigned best = 0;
    change_priorities();
    for (unsigned at = 1; at < count; at++)
        if (ex->path.priorities[clients[at]] > ex->path.priorities[clients[best]])
            best = at;
    return best;
}

unsigned ex_decide(unsigned count, Asks asks, const int *clients, bool may_stay)
{
    bool is_switch = asks == SWITCH;
    if (ex->run.is_guided)
        return ex_guided(count, asks, clients);
    if (ex->search.replay)
        return play_again(count, asks, clients);
    if (ex->search.seed && is_switch && ex->search.pct)
        return by_priority(count, clients);
    if (ex->search.seed)
        return is_switch ? ex_draw(count) : ex_draw(8) == 0;
    return follow(count, is_switch, clients, may_stay);
}

/* How often the client goes on in a row; a refusal stands alone. */
static size_t in_a_row(size_t at, size_t length)
{
    size_t end = at + 1;
    while (end < length && ex->schedule.steps[end] == ex->schedule.steps[at] && ex->schedule.steps[at] < FIRST_SIGN)
        end++;
    return end - at;
}

const char *ex_schedule_text(size_t length)
{
    char *text = ex->schedule.text;
    size_t used = 0, size = sizeof ex->schedule.text, count;
    text[0] = 0;
    for (size_t at = 0; at < length && used + 64 < size; at += count) {
        uint8_t client = ex->schedule.steps[at];
        count = in_a_row(at, length);
        used += (size_t)snprintf(text + used, size - used, at ? " %s" : "%s", ex_sign_name(client) ? ex_sign_name(client) : ex_runners[client].name);
        if (count > 1)
            used += (size_t)snprintf(text + used, size - used, "*%zu", count);
    }
    return text;
}
