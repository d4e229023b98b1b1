/* Whether steps that are taken to come to the same in either order do: at random places of random schedules the next steps of two clients run in both orders, and behind them all clients in the same order. Then each client
 * has to come to the same points, to read the same there, and the run has to find the same. */
#include "explore.h"

enum { SHOWN = 20 };

struct Pair {
    unsigned place;    /* behind so many steps */
    int first, second; /* in the one order; 0 as long as nothing is chosen */
    bool is_other;     /* the other order runs */
    bool is_there;     /* it came to both */
    bool do_depend;
    uint64_t seen;
    const char *at[2];
};
#define pair ex->run.pair

static bool is_option(const int *clients, unsigned count, int wanted)
{
    for (unsigned at = 0; at < count; at++)
        if (clients[at] == wanted)
            return true;
    return false;
}

static unsigned place_of(const int *clients, unsigned count, int wanted)
{
    unsigned at = 0;
    while (at + 1 < count && clients[at] != wanted)
        at++;
    return at;
}

static unsigned lowest(const int *clients, unsigned count)
{
    unsigned best = 0;
    for (unsigned at = 1; at < count; at++)
        best = clients[at] < clients[best] ? at : best;
    return best;
}

static void pick(const int *clients, unsigned count)
{
    unsigned first = ex_draw(count), second = (first + 1 + ex_draw(count - 1)) % count;
    pair->first = clients[first];
    pair->second = clients[second];
    pair->at[0] = ex_runners[pair->first].at;
    pair->at[1] = ex_runners[pair->second].at;
}

/* One that can't be tried is given up. */
unsigned ex_choose_for_pair(const int *clients, unsigned count)
{
    unsigned behind = ex->run.steps < pair->place ? 0 : ex->run.steps - pair->place + 1;
    if (!behind)
        return ex_draw(count);
    if (behind == 1 && count < 2)
        ex_give_up();
    if (behind == 1 && !pair->first)
        pick(clients, count);
    if (behind > 2) {
        if (behind == 3 && !pair->is_other)
            pair->do_depend = ex_do_steps_depend(pair->place + 1, pair->place + 2);
        pair->is_there = true;
        return lowest(clients, count);
    }
    int next = (behind == 1) != pair->is_other ? pair->first : pair->second;
    if (!is_option(clients, count, next))
        ex_give_up();
    return place_of(clients, count, next);
}

static uint64_t seen(void)
{
    uint64_t hash = ex_found_hash();
    for (int client = 1; client <= ex->run.runners_count; client++)
        hash += ex_mixed(ex->run.seen[client] + (unsigned)client);
    return hash;
}

/* Whether the run came to both. */
static bool run_order(bool is_other, uint64_t from)
{
    ex->path.random = from;
    ex->path.length = 0;
    pair->is_other = is_other;
    pair->is_there = false;
    ex_run_once();
    return pair->is_there;
}

static void tell(unsigned run)
{
    printf("run %u, behind %u steps: %s at %s, and %s at %s\n", run, pair->place, ex_runners[pair->first].name, pair->at[0], ex_runners[pair->second].name, pair->at[1]);
}

int ex_try_pairs(unsigned runs)
{
    unsigned pairs = 0, same = 0, apart = 0, wrong = 0;
    struct Pair *one = ex_map(sizeof *one);
    pair = one;
    ex->search.bound = UINT32_MAX;
    for (unsigned at = 1; at <= runs; at++) {
        *one = (struct Pair){.do_depend = true};
        ex->search.minds |= ex->run.met;
        ex->path.random = at * 0x9e3779b97f4a7c15ULL | 1;
        one->place = ex_draw(ex->path.usual_steps);
        uint64_t from = ex->path.random;
        bool is_first = run_order(false, from);
        one->seen = seen();
        bool is_same = one->first && run_order(true, from) && is_first && one->seen == seen();
        pairs += one->first != 0;
        same += is_same;
        apart += !one->do_depend;
        if (!one->do_depend && !is_same && wrong++ < SHOWN)
            tell(at);
    }
    printf("%u pairs, %u come to the same in both orders, %u are taken to, %u of them wrongly\n", pairs, same, apart, wrong);
    return wrong > 0;
}
