/* Which schedules are searched: of those that differ only by the order of steps that come to the same in either order, one. A client that could go on is interrupted only before a step that some
 * later step of another client, in some schedule in which it goes on, doesn't come behind by itself, though both use the same. And where it is interrupted it sleeps: it doesn't go on before
 * another client's step used what it is about to use, for else it might have gone on at first, with no more preemptions. Nothing is lost by that:
 *
 * Who sleeps. A client went on at a choice, and all that comes after that was searched. Where another goes on in its place, the first one sleeps, and what its step used is kept. As long as the
 * others' steps use nothing of that, its step may as well have come before theirs: so what comes if it goes on now was searched. It wakes at the first step that uses the same, and at one that
 * stops it. So the set holds those whose next step leads to nothing but what was searched.
 *
 * Who is met. A choice at which a client stays has its other options only if something meets the client's step. Else each schedule in which others go first has the same steps as one in which they
 * come behind it. But a client that waits has a next step as well, which perhaps never comes: it could have gone on, and a step of another took away what it waited for. Those two use the same,
 * and in the other order both come. So whoever could go on at the last choice, neither went nor can now, counts as if his step had come and met the one that is through. For that a wait that looks
 * at several things needs steps that meet one another: those that change what it looks at write the same, or are taken to use everything.
 *
 * What a bound adds. Of two schedules that come to the same one may have more preemptions. To stay costs none: if a client's step moves to where it stayed, the switch away from it comes behind that
 * step, and no other is added. So the first option alone is searched by itself, or sleeps. Where a client comes newly, by a preemption or since another waits or ended, each option is searched:
 * which of their orders has fewer preemptions isn't known. Where none is left there is no choice. Without a bound each option may sleep. */
#include "explore.h"

enum { TAGS = 1 << 15, TRIES = 64, STEPS_USES = 1 << 18, MOST_BEFORE = RUNNERS + 1 + USES * (2 * RUNNERS + 1) };

/* Who used it last, as numbers of steps. */
typedef struct {
    uintptr_t tag;
    uint32_t written, read[RUNNERS + 1], added[RUNNERS + 1];
} Used;

typedef struct {
    uint8_t client;
    bool is_all;
    uint32_t from, count; /* of what it used */
    uint32_t node;        /* the choice at which its client stayed, and one; 0 where it had no choice, or came newly */
    uint32_t own, all;    /* the client's step before it, and the last that used everything */
    uint32_t clock[RUNNERS + 1]; /* of each client the last step that it comes behind */
} Step;

/* A run's steps, and how what they used stood before. None of it is put back: a run that goes on from a place has the same steps up to there. */
static struct {
    Used used[TAGS];
    Step steps[STEPS + 2];
    uint32_t length;
    Use uses[STEPS_USES];
    struct {
        Used *used;
        uint32_t *slot, before;
    } notes[STEPS_USES]; /* of each use */
    uint32_t uses_count, all, last[RUNNERS + 1];
    Footprint tried[PATH][RUNNERS + 1]; /* at each choice, of each client that went on there: what its step used */
} *order;

void ex_open_order(void)
{
    order = ex_map(sizeof *order);
    ex_open_footprints();
}

/* ---- Back to a step. */
void ex_order_back_to(uint32_t step)
{
    for (; order->length > step; order->length--) {
        const Step *gone = &order->steps[order->length];
        for (uint32_t at = gone->from + gone->count; at > gone->from; at--)
            *order->notes[at - 1].slot = order->notes[at - 1].before;
        order->uses_count = gone->from;
        order->last[gone->client] = gone->own;
        order->all = gone->all;
    }
    ex_begin_footprint();
}

/* NULL where there is no room for more. */
static Used *used_of(uintptr_t tag)
{
    size_t at = (size_t)ex_mixed(tag) & (TAGS - 1);
    for (int tries = 0; tries < TRIES; tries++, at = (at + 1) & (TAGS - 1)) {
        if (!order->used[at].tag)
            order->used[at].tag = tag;
        if (order->used[at].tag == tag)
            return &order->used[at];
    }
    return NULL;
}

/* ---- The steps before it that use the same, the last first. */
typedef struct {
    uint32_t steps[MOST_BEFORE];
    unsigned count;
} Before;

static void add(Before *before, uint32_t step, unsigned me)
{
    unsigned at = before->count;
    if (!step || order->steps[step].client == me)
        return;
    while (at > 0 && before->steps[at - 1] < step)
        at--;
    if (at > 0 && before->steps[at - 1] == step)
        return;
    memmove(&before->steps[at + 1], &before->steps[at], (before->count - at) * sizeof before->steps[0]);
    before->steps[at] = step;
    before->count++;
}

static void add_users(Before *before, const Used *used, KzUse how, unsigned me)
{
    add(before, used->written, me);
    for (int client = 1; client <= ex->run.runners_count; client++) {
        if (how != KZU_READS && used->read[client] > used->written)
            add(before, used->read[client], me);
        if (how != KZU_ADDS && used->added[client] > used->written)
            add(before, used->added[client], me);
    }
}

static void find_before(Before *before, const Step *step)
{
    before->count = 0;
    if (step->is_all)
        for (int client = 1; client <= ex->run.runners_count; client++)
            add(before, order->last[client], step->client);
    else
        add(before, order->all, step->client);
    for (uint32_t at = step->from; at < step->from + step->count; at++)
        add_users(before, order->notes[at].used, order->uses[at].how, step->client);
}

/* Those that it didn't come behind before might come behind it: then their clients may be interrupted there. */
static void come_behind(Step *step, const Before *before)
{
    if (step->own)
        memcpy(step->clock, order->steps[step->own].clock, sizeof step->clock);
    else
        memset(step->clock, 0, sizeof step->clock);
    for (unsigned at = 0; at < before->count; at++) {
        const Step *one = &order->steps[before->steps[at]];
        if (step->clock[one->client] >= before->steps[at])
            continue;
        if (one->node)
            ex->path.nodes[one->node - 1].is_met = true;
        for (int client = 1; client <= ex->run.runners_count; client++)
            if (one->clock[client] > step->clock[client])
                step->clock[client] = one->clock[client];
    }
}

static void note_uses(const Step *step, uint32_t number)
{
    for (uint32_t at = step->from; at < step->from + step->count; at++) {
        Used *used = order->notes[at].used;
        uint32_t *slot = order->uses[at].how == KZU_WRITES ? &used->written : order->uses[at].how == KZU_READS ? &used->read[step->client] : &used->added[step->client];
        order->notes[at].slot = slot;
        order->notes[at].before = *slot;
        *slot = number;
    }
}

/* False where there is no room for all that it uses. */
static bool find_used(const Footprint *one)
{
    bool has = order->uses_count + one->count < STEPS_USES;
    for (unsigned at = 0; at < one->count && has; at++)
        has = (order->notes[order->uses_count + at].used = used_of(one->uses[at].tag)) != NULL;
    return has;
}

static void add_step(Footprint *one, uint32_t number)
{
    Step *step = &order->steps[number];
    Before before;
    one->is_all |= !find_used(one);
    *step = (Step){.client = (uint8_t)ex->run.current, .is_all = one->is_all, .from = order->uses_count, .count = one->is_all ? 0 : one->count, .node = ex->run.stayed_at, .own = order->last[ex->run.current], .all = order->all};
    memcpy(&order->uses[step->from], one->uses, step->count * sizeof one->uses[0]);
    find_before(&before, step);
    come_behind(step, &before);
    step->clock[step->client] = number;
    note_uses(step, number);
    order->uses_count += step->count;
    order->last[step->client] = number;
    if (step->is_all)
        order->all = number;
    order->length = number;
}

/* ---- Who sleeps. */
static void wake(const Step *step)
{
    for (uint32_t left = ex->run.asleep; left; left &= left - 1) {
        int client = __builtin_ctz(left);
        const Footprint *one = &order->tried[ex->run.slept_at[client]][client];
        if (one->is_all || step->is_all || ex_do_depend(one->uses, one->count, &order->uses[step->from], step->count))
            ex->run.asleep &= ~(1U << client);
    }
}

bool ex_do_steps_depend(uint32_t a, uint32_t b)
{
    const Step *one = &order->steps[a], *other = &order->steps[b];
    return one->is_all || other->is_all || ex_do_depend(&order->uses[one->from], one->count, &order->uses[other->from], other->count);
}

bool ex_is_asleep(int client)
{
    return ex->run.asleep >> client & 1;
}

static void keep_tried(const Footprint *one)
{
    unsigned client = (unsigned)ex->run.current;
    if (!ex->run.chose_at || !(ex->run.stayed_at || ex->search.has_no_bound))
        return;
    Footprint *tried = &order->tried[ex->run.chose_at - 1][client];
    tried->is_all = one->is_all;
    tried->count = one->count;
    memcpy(tried->uses, one->uses, one->count * sizeof one->uses[0]);
    ex->path.nodes[ex->run.chose_at - 1].tried |= 1U << client;
}

/* A client's step is through. */
void ex_end_step(void)
{
    uint32_t number = ex->run.steps;
    if (!ex->search.is_thinned || !number)
        return;
    if (order->length < number) {
        Footprint *one = ex_footprint();
        one->is_all |= ex->run.buffers[ex->run.current].count || ex_runners[ex->run.current].owes || ex_is_line_open();
        add_step(one, number);
        keep_tried(one);
    }
    const Step *step = &order->steps[number];
    wake(step);
    ex_note_used(&order->uses[step->from], step->count, step->is_all);
    ex_begin_footprint();
}

/* The client that stayed for this step is interrupted before it, too. */
static void meet_this_step(void)
{
    if (ex->run.stayed_at)
        ex->path.nodes[ex->run.stayed_at - 1].is_met = true;
}

/* Those clients can go on now. Whoever could before the step that is through, and neither went nor can any more, was stopped by it. His own step would have met that one, and perhaps never comes. */
void ex_note_able(const int *clients, unsigned count)
{
    uint32_t able = 0;
    for (unsigned at = 0; at < count; at++)
        able |= 1U << clients[at];
    uint32_t stopped = ex->run.able & ~able & ~(1U << ex->run.current);
    ex->run.able = able;
    ex->run.asleep &= ~stopped;
    if (stopped)
        meet_this_step();
}

/* It broke off within a step: what that would have used isn't known. */
void ex_break_step(void)
{
    if (!ex->search.is_thinned || order->length >= ex->run.steps)
        return;
    ex_footprint()->is_all = true;
    meet_this_step();
    ex_end_step();
}

/* ---- Choices. */
/* The first option from that one on whose client doesn't sleep. */
static unsigned awake_from(const Node *node, unsigned option)
{
    while (option < node->count && node->asleep >> node->clients[option] & 1)
        option++;
    return option;
}

static void note_clients(Node *node, const int *clients)
{
    for (unsigned at = 0; at < node->count; at++)
        node->clients[at] = (uint8_t)clients[at];
}

/* A choice comes up for the first time: false if all that could go on sleep. */
bool ex_begin_choice(Node *node, const int *clients, bool may_stay)
{
    note_clients(node, clients);
    node->is_cut = ex->search.is_spread && ex->path.deviations < DEVIATIONS;
    node->may_stay = may_stay || ex->search.has_no_bound;
    node->asleep = ex->run.asleep;
    node->taken = node->first = (uint8_t)awake_from(node, 0);
    return node->taken < node->count;
}

static void let_sleep(const Node *node, unsigned option, unsigned at)
{
    unsigned client = node->clients[option];
    if (!(node->tried >> client & 1) || node->asleep >> client & 1)
        return;
    ex->run.asleep |= 1U << client;
    ex->run.slept_at[client] = at;
}

/* Those that were searched before the one that is taken, and may sleep. Where preemptions are bounded the first alone does: with others that went on before there may be more of them. And where
 * parts begin, since each part knows what that uses. */
static unsigned end_of_sleepers(const Node *node)
{
    unsigned most = ex->search.has_no_bound && !node->is_cut ? node->count : node->first + 1U;
    return most < node->taken ? most : node->taken;
}

/* It is made, for the first time or again; or for the first time since the search was interrupted. */
void ex_note_choice(Node *node, const int *clients)
{
    unsigned at = (unsigned)(node - ex->path.nodes);
    if (!node->stands)
        note_clients(node, clients);
    ex->run.chose_at = at + 1;
    ex->run.stayed_at = node->may_stay && node->taken == node->first ? at + 1 : 0;
    for (unsigned option = node->first; node->may_stay && option < end_of_sleepers(node); option++)
        let_sleep(node, option, at);
}

/* The option behind the one that was searched; as many as there are if none is to be. */
unsigned ex_next_option(const Node *node)
{
    if (!ex->search.is_thinned || !node->is_switch)
        return node->taken + 1U;
    return node->may_stay && !node->is_met && !node->is_cut ? node->count : awake_from(node, node->taken + 1U);
}

/* ---- A search that was interrupted goes on. What was searched at each choice goes one step again, so that it is known what that uses. */
static void go_again(Node *node, unsigned option)
{
    uint8_t taken = node->taken;
    size_t length = ex->path.length;
    node->taken = (uint8_t)option;
    ex->path.length = ex->path.goes_to = (size_t)(node - ex->path.nodes) + 1;
    if (option == node->first || !(node->asleep >> node->clients[option] & 1))
        ex_run_once();
    ex->path.length = length;
    ex->path.goes_to = 0;
    node->taken = taken;
}

static void go_again_before(Node *node)
{
    unsigned end = node->may_stay ? end_of_sleepers(node) : 0;
    for (unsigned option = node->first; option < end; option++)
        go_again(node, option);
}

void ex_go_on_in_order(void)
{
    for (size_t at = 0; ex->search.is_thinned && at < ex->path.length; at++)
        if (ex->path.nodes[at].is_switch)
            go_again_before(&ex->path.nodes[at]);
}
