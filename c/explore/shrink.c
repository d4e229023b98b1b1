/* What was found, by less: a schedule with fewer switches, and a scenario with fewer requests. Both are tried, one change after the other, until none is left that finds the same. */
#include "explore.h"

enum { TRIES = 3000, SEGMENTS = 512 };

/* ---- A schedule is a list of clients, each with its steps. */
typedef struct {
    uint8_t client;
    unsigned times;
} Segment;

/* In memory that isn't put back: where it is, and how many steps of that segment are made. */
struct Guide {
    Segment all[SEGMENTS];
    unsigned count, at, done;
};
#define guide ex->run.guide

static bool read_schedule(const char *text)
{
    guide->count = 0;
    for (const char *at = text; *at; at += strcspn(at, " ")) {
        at += strspn(at, " ");
        size_t length = strcspn(at, "* ");
        unsigned times = 1, client = 0;
        if (!length || guide->count == SEGMENTS)
            return false;
        if (at[length] == '*')
            sscanf(at + length + 1, "%u", &times);
        for (int number = 1; number <= ex->run.runners_count && !client; number++)
            if (ex_runners[number].client && strlen(ex_runners[number].name) == length && strncmp(ex_runners[number].name, at, length) == 0)
                client = (unsigned)number;
        if (!client)
            client = ex_sign_named(at, length);
        guide->all[guide->count++] = (Segment){(uint8_t)client, times};
    }
    return guide->count > 0;
}

/* At a choice of a run that follows the list as far as it can: a client that can't go on is left out; after the list each goes on until it waits. */
unsigned ex_guided(unsigned count, Asks asks, const int *clients)
{
    while (guide->at < guide->count && guide->done >= guide->all[guide->at].times) {
        guide->at++;
        guide->done = 0;
    }
    if (guide->at == guide->count)
        return 0;
    const Segment *now = &guide->all[guide->at];
    if (asks != SWITCH) {
        bool is_it = now->client == ex_sign_of(asks);
        guide->done += is_it;
        return is_it;
    }
    for (unsigned at = 0; at < count; at++)
        if (clients[at] == now->client) {
            guide->done++;
            return at;
        }
    if (count == 1)
        return 0;
    guide->at++;
    guide->done = 0;
    return ex_guided(count, asks, clients);
}

static Kind *found_again(const Kind *wanted)
{
    for (int at = 0; at < ex->kinds.count; at++)
        if (ex->kinds.all[at].of == wanted->of && strcmp(ex->kinds.all[at].key, wanted->key) == 0)
            return &ex->kinds.all[at];
    return NULL;
}

/* A run of the list finds the kind, and by less. */
static bool is_shorter(Kind *kind)
{
    Kind before = *kind;
    guide->at = guide->done = 0;
    kind->preemptions = UINT32_MAX;
    ex_run_once();
    bool is_found = kind->preemptions != UINT32_MAX;
    bool is_less = is_found && (kind->preemptions < before.preemptions || (kind->preemptions == before.preemptions && (kind->switches < before.switches || (kind->switches == before.switches && kind->steps < before.steps))));
    uint64_t seed = before.seed;
    if (!is_less)
        *kind = before;
    kind->seed = is_less ? 0 : seed;
    kind->count = before.count;
    return is_less;
}

/* Without one segment, or with its steps all at once in the one of the same client before it. */
static bool try_without(Kind *kind, unsigned at, bool is_joined)
{
    Segment kept[SEGMENTS];
    unsigned count = guide->count;
    memcpy(kept, guide->all, sizeof kept);
    for (unsigned before = at; is_joined && before-- > 0;)
        if (guide->all[before].client == guide->all[at].client) {
            guide->all[before].times += guide->all[at].times;
            break;
        }
    memmove(guide->all + at, guide->all + at + 1, (count - at - 1) * sizeof guide->all[0]);
    guide->count = count - 1;
    if (is_shorter(kind))
        return true;
    memcpy(guide->all, kept, sizeof kept);
    guide->count = count;
    return false;
}

static void shrink_schedule(Kind *kind)
{
    unsigned tries = 0;
    bool has_changed = true;
    while (has_changed && tries < TRIES && read_schedule(kind->schedule)) {
        has_changed = false;
        for (unsigned at = 0; at < guide->count && !has_changed && tries < TRIES; at++, tries++)
            has_changed = try_without(kind, at, false) || try_without(kind, at, true);
    }
}

/* ---- A scenario without one request: whether the kind is found with as many preemptions. */
static bool is_found_without(const Kind *wanted)
{
    enum { RUNS = 20000 };
    unsigned preemptions = wanted->preemptions < 3 ? wanted->preemptions : 3;
    bool is_found = false;
    for (ex->search.bound = 0; ex->search.bound <= preemptions && !is_found; ex->search.bound++) {
        unsigned runs = 0;
        bool is_more = true;
        ex->path.length = 0;
        while (is_more && !is_found && runs++ < RUNS) {
            ex->kinds.count = 0;
            ex_run_once();
            is_found = found_again(wanted) != NULL;
            is_more = ex_advance();
        }
    }
    return is_found;
}

/* The requests of a client that are left out, a bit for each. */
static void put_scenario(void)
{
    for (int at = 1; at <= ex->run.usual_count; at++) {
        const Runner *one = &ex_runners[at];
        unsigned left = 0;
        for (size_t request = 0; one->script && request < one->script->count; request++) {
            if (ex->run.left_out[at] >> request & 1)
                continue;
            if (!left++)
                printf("    %s%s: ", one->script->is_finally ? "" : "client ", one->name);
            printf("%s%s", left > 1 ? "; " : "", one->script->requests[request]);
        }
        if (left)
            putchar('\n');
    }
}

static void shrink_scenario(const Kind *wanted)
{
    unsigned without = 0;
    memset(ex->run.left_out, 0, sizeof ex->run.left_out);
    for (int at = 1; at <= ex->run.usual_count; at++)
        for (size_t request = ex_runners[at].script ? ex_runners[at].script->count : 0; request-- > 0;) {
            ex->run.left_out[at] |= 1ULL << request;
            if (is_found_without(wanted))
                without++;
            else
                ex->run.left_out[at] &= ~(1ULL << request);
        }
    if (without) {
        printf("\nwith %u requests less the same is found:\n", without);
        ex_put_kind_line(wanted);
        put_scenario();
    }
    memset(ex->run.left_out, 0, sizeof ex->run.left_out);
}

static void each_scenario(void)
{
    int count = ex->kinds.count;
    Kind *kept = ex_map(sizeof ex->kinds.all);
    memcpy(kept, ex->kinds.all, sizeof ex->kinds.all);
    ex->run.is_guided = false;
    for (int at = 0; at < count; at++)
        if (kept[at].of != END && kept[at].of != LIMITED)
            shrink_scenario(&kept[at]);
    memcpy(ex->kinds.all, kept, sizeof ex->kinds.all);
    ex->kinds.count = count;
}

/* What else comes up meanwhile doesn't count. */
static void shrink_schedules(void)
{
    int count = ex->kinds.count;
    uint64_t *counts = ex_map(sizeof *counts * KINDS);
    for (int at = 0; at < count; at++)
        counts[at] = ex->kinds.all[at].count;
    for (int at = 0; at < count; at++)
        if (ex->kinds.all[at].of != END && ex->kinds.all[at].of != LIMITED)
            shrink_schedule(&ex->kinds.all[at]);
    for (int at = 0; at < count; at++)
        ex->kinds.all[at].count = counts[at];
    ex->kinds.count = count;
}

void ex_shrink(void)
{
    uint64_t seed = ex->search.seed, counts[LIMITED + 1], schedules = ex->total.schedules;
    unsigned longest = ex->total.longest, shards = ex->search.shards, fails = ex->search.fails;
    memcpy(counts, ex->total.counts, sizeof counts);
    ex->search.is_reduced = ex->search.is_thinned = false;
    ex->search.seed = ex->search.shards = 0;
    guide = ex_map(sizeof(struct Guide));
    ex->run.is_guided = true;
    ex->search.bound = UINT32_MAX;
    ex->path.length = 0;
    shrink_schedules();
    each_scenario();
    ex->run.is_guided = false;
    ex->search.seed = seed, ex->total.schedules = schedules, ex->total.longest = longest, ex->search.shards = shards, ex->search.fails = fails;
    memcpy(ex->total.counts, counts, sizeof counts);
}
