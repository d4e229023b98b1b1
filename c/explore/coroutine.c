/* The clients of a run: coroutines of one thread. One that stands at a point, waits or has ended asks who goes on. */
#include "explore.h"
#include "core/clock.h"
#include "manager/perform.h"
#include "manager/work.h"
#include "kit/dpc.h"
#include "kit/timer.h"
#include "run/load.h"

#include <signal.h>
#include <sys/mman.h>

enum { STACK = 1 << 18, BELOW = 1 << 12 };
/* Of a client that goes on and on: after so many steps of its own others go first, if some can; so many accesses between two calls of the kit; so often in vain where nobody else can go on. */
enum { MANY = 400, ACCESSES = 200, ALONE = 300 };
#define STACKS 0x20000000000UL

Runner ex_runners[RUNNERS + 1];

/* ---- Stacks. Of one that isn't run the registers lie on it: those that a call keeps, and where it goes on. */
enum { KEPT = 6 };
void ex_switch(void **from, void *to);
__asm__(".text\n"
        ".type ex_switch, @function\n"
        "ex_switch:\n"
        "    pushq %rbp\n    pushq %rbx\n    pushq %r12\n    pushq %r13\n    pushq %r14\n    pushq %r15\n"
        "    movq %rsp, (%rdi)\n"
        "    movq %rsi, %rsp\n"
        "    popq %r15\n    popq %r14\n    popq %r13\n    popq %r12\n    popq %rbx\n    popq %rbp\n"
        "    ret\n"
        ".size ex_switch, . - ex_switch\n");

static char *top_of(int client)
{
    return (char *)STACKS + (size_t)(client + 1) * STACK;
}

static bool is_set_up(void)
{
    return kz_me == &kz_first;
}

static Runner *mine(void)
{
    return &ex_runners[kz_me->number];
}

/* ---- Who can go on. */
static bool can_go_on(Runner *one)
{
    if (one->state != WAITING)
        return one->state != ENDED;
    KzClient *before = kz_me;
    kz_me = one->client;
    bool can = one->can(one->what);
    kz_me = before;
    return can;
}

/* Of clients with the same lines that haven't begun only the first may begin: the others' schedules are the same by other names. */
static bool is_behind_like(const Runner *one)
{
    for (int at = one->like; !one->has_begun && at < (int)one->client->number; at++)
        if (ex_runners[at].like == one->like && !ex_runners[at].has_begun)
            return true;
    return false;
}

static bool is_finally(const Runner *one)
{
    return one->script && one->script->is_finally;
}

/* Of the scenario's clients. */
static bool is_any_left(void)
{
    for (int at = 1; at <= ex->run.runners_count; at++)
        if (!ex_runners[at].is_worker && ex_runners[at].state != ENDED)
            return true;
    return false;
}

typedef struct {
    int clients[RUNNERS];
    unsigned count;
    bool may_stay;
} Options;

static void add(Options *options, Runner *one)
{
    options->clients[options->count++] = (int)(one - ex_runners);
}

/* The one that runs first; those that only go on where nobody else can, then: the scenario's last lines, and waits whose time is over. */
static Options options_of(Runner *me)
{
    Options options = {.count = 0};
    if (me && !is_finally(me) && can_go_on(me)) {
        options.may_stay = true;
        add(&options, me);
    }
    for (int at = 1; at <= ex->run.runners_count; at++) {
        Runner *one = &ex_runners[at];
        if (one != me && !is_finally(one) && can_go_on(one) && !is_behind_like(one))
            add(&options, one);
    }
    for (int at = 1; at <= ex->run.runners_count && !options.count; at++)
        if (is_finally(&ex_runners[at]) && can_go_on(&ex_runners[at]))
            add(&options, &ex_runners[at]);
    bool is_over = !options.count && !is_any_left(); /* whoever is beside the clients alone waits on */
    for (int at = 1; at <= ex->run.runners_count && !options.count; at++)
        if (ex_runners[at].state == WAITING && ex_runners[at].client->timeout && !(is_over && ex_runners[at].thread)) {
            ex_runners[at].timed_out = true;
            add(&options, &ex_runners[at]);
        }
    for (int at = 1; at <= ex->run.runners_count && !options.count; at++)
        if (ex_runners[at].state == WAITING && ex_runners[at].yields && ex->run.patience[at].alone < ALONE) {
            ex->run.patience[at].alone++;
            add(&options, &ex_runners[at]);
        }
    return options;
}

static void forget_looks(int at)
{
    if (ex->run.patience[at].has_looked)
        memset(ex->run.patience[at].looks, 0, sizeof ex->run.patience[at].looks);
    ex->run.patience[at].has_looked = false;
}

static void note_step(int client)
{
    if (ex->run.steps++ == STEPS) {
        ex_found(STUCK, "ENDLESS: the run doesn't come to an end");
        siglongjmp(ex->run.out, 1);
    }
    ex->schedule.steps[ex->schedule.length++] = (uint8_t)client;
    for (int at = 1; at <= ex->run.runners_count; at++) {
        if (at == client)
            continue;
        ex_runners[at].owes &= ~(1U << client);
        ex_runners[at].has_moved |= ex_runners[at].yields;
        ex->run.patience[at].alone = 0;
        if (!ex->search.is_thinned)
            forget_looks(at);
    }
}

/* Where orders are left out a step has others look anew only where it changed what they look at: else it would matter when it comes. */
void ex_note_used(const Use *uses, unsigned count, bool is_all)
{
    for (int at = 1; at <= ex->run.runners_count; at++)
        for (unsigned look = 0; at != ex->run.current && ex->run.patience[at].has_looked && look < LOOKS; look++) {
            const uintptr_t word = ex->run.patience[at].looks[look].at >> 3;
            const Use seen[] = {{word, KZU_READS}, ex_block_around(word)};
            if (is_all || ex_do_depend(seen, 2, uses, count))
                ex->run.patience[at].looks[look].count = 0;
        }
}

/* What goes on where others can't, or waited for what isn't said. */
static bool may_use_all(const Runner *one)
{
    bool is_late = one->timed_out || one->yields || one->owes || is_finally(one);
    return one->is_worker || is_late || ex->run.buffers[one->client->number].count || (one->state == WAITING && !one->client->is_known);
}

static int begin_step(int client, bool is_preemption)
{
    ex->run.preemptions += is_preemption;
    ex->run.switches += client != ex->run.current && ex->run.current;
    note_step(client);
    if (may_use_all(&ex_runners[client]))
        ex_footprint()->is_all = true;
    if (ex->search.stops_at && ex->run.steps == ex->search.stops_at)
        raise(SIGTRAP); /* a debugger stops here: the client goes on next */
    if (ex->search.is_traced)
        ex_trace_step(&ex_runners[client], is_preemption);
    return client;
}

/* The number of the client that goes on; 0 if none can. */
static int choose(Runner *me)
{
    ex_end_step();
    if (ex->path.goes_to && ex->path.depth >= ex->path.goes_to)
        ex_give_up();
    Options options = options_of(me);
    ex_note_able(options.clients, options.count);
    if (!options.count)
        return 0;
    ex->run.stayed_at = ex->run.chose_at = 0;
    bool is_bound = options.may_stay && ex->run.preemptions >= ex->search.bound && !ex->search.replay;
    if (ex->run.pair)
        return begin_step(options.clients[ex_choose_for_pair(options.clients, options.count)], false);
    if (options.count == 1 && ex->search.is_thinned && ex_is_asleep(options.clients[0]))
        ex_give_up();
    unsigned taken = options.count > 1 && !is_bound ? ex_decide(options.count, SWITCH, options.clients, options.may_stay) : 0;
    if ((ex->search.replay || ex->run.is_guided) && options.count == 1)
        taken = ex_decide(1, SWITCH, options.clients, options.may_stay);
    return begin_step(options.clients[taken], options.may_stay && taken > 0);
}

/* Where states are told apart, or places kept, another stack chooses, so that all clients stand alike. */
static void stand_aside(Runner *me)
{
    if (ex->search.is_reduced || ex->run.has_places || ex->run.is_alone) {
        ex_switch(&me->stands, ex->run.back);
        return;
    }
    int client = choose(me);
    if (client == (int)me->client->number)
        return;
    ex->run.current = client;
    kz_me = client ? ex_runners[client].client : &kz_first;
    ex_switch(&me->stands, client ? ex_runners[client].stands : ex->run.back);
}

static void go_on(Runner *me)
{
    ex_take_out();
    stand_aside(me);
    ex_put_in();
}

/* ---- Who looks for something again and again lets each of the others go first that can, or that could since: so nobody looks for ever while the one that would change it stands. */
static bool may_go_first(const Runner *me, int at)
{
    Runner *one = &ex_runners[at];
    return one != me && !one->yields && !is_finally(one) && one->state != ENDED && can_go_on(one) && !is_behind_like(one);
}

static bool has_let_others(void *what)
{
    const Runner *me = what;
    for (int at = 1; at <= ex->run.runners_count; at++)
        if (me->owes >> at & 1 && may_go_first(me, at))
            return false;
    return me->has_moved;
}

static bool can_others(const Runner *me)
{
    for (int at = 1; at <= ex->run.runners_count; at++)
        if (may_go_first(me, at))
            return true;
    return false;
}

static bool wait(KzCan *can, void *what, const char *text)
{
    Runner *me = mine();
    ex_see_writes();
    if (!kz_me->is_known)
        ex_use_all();
    me->can = can;
    me->what = what;
    me->timed_out = false;
    snprintf(me->client->waits, sizeof me->client->waits, "%s", text);
    me->state = WAITING;
    if (kz_me->stands)
        me->at = kz_me->stands, me->from = NULL;
    go_on(me);
    me->state = RUNNING;
    return !me->timed_out;
}

static void owe_all(Runner *me)
{
    me->owes = 0;
    me->is_long = false;
    for (int at = 1; at <= ex->run.runners_count; at++)
        if (&ex_runners[at] != me && ex_runners[at].state != ENDED && !is_finally(&ex_runners[at]))
            me->owes |= 1U << at;
}

static void yield(Runner *me, const void *from)
{
    me->from = from;
    me->yields = true;
    me->has_moved = false;
    wait(has_let_others, me, "what it looks at again and again");
    me->yields = me->has_moved = false;
}

/* Whether the place has looked often enough, and found the same each time. */
static bool is_in_vain(const void *from, uintptr_t at, uint64_t value)
{
    Patience *mine_own = &ex->run.patience[kz_me->number];
    unsigned place = (unsigned)(((uintptr_t)from >> 2 ^ (uintptr_t)from >> 6) % LOOKS);
    bool is_same = mine_own->looks[place].from == from && mine_own->looks[place].at == at && mine_own->looks[place].value == value;
    mine_own->has_looked = true;
    mine_own->looks[place].from = from;
    mine_own->looks[place].at = at;
    mine_own->looks[place].value = value;
    mine_own->looks[place].count = is_same ? mine_own->looks[place].count + 1 : 1;
    if (mine_own->looks[place].count < LOOKS_ENOUGH)
        return false;
    mine_own->looks[place].count = 0;
    return true;
}

void ex_note_change(void)
{
    if (is_set_up() || !ex || !ex->run.is_running)
        return;
    forget_looks((int)kz_me->number);
    mine()->owes = 0;
}

/* What a client has seen twice decides how soon it lets others go first. */
uint64_t ex_patience_hash(void)
{
    uint64_t hash = 0;
    for (int at = 1; at <= ex->run.runners_count; at++)
        for (unsigned place = 0; ex->run.patience[at].has_looked && place < LOOKS; place++)
            if (ex->run.patience[at].looks[place].count > 1)
                hash += ex_mixed((uintptr_t)ex->run.patience[at].looks[place].from * 64 + (unsigned)at + ex->run.patience[at].looks[place].value * 3 + ex->run.patience[at].looks[place].at * 5);
    return hash;
}

/* Who stands where, after so many steps: where the same choices led elsewhere, the driver doesn't repeat itself. */
uint64_t ex_stands_hash(void)
{
    uint64_t hash = ex->run.steps + 1;
    for (int at = 1; at <= ex->run.runners_count; at++)
        hash = (hash ^ (uintptr_t)ex_runners[at].at ^ (uintptr_t)ex_runners[at].from << 20 ^ (uint64_t)ex_runners[at].state << 60) * 0x9e3779b97f4a7c15ULL;
    return hash | 1;
}

void ex_note_seen(uint64_t what)
{
    uint64_t *seen = &ex->run.seen[kz_me->number];
    if (ex->run.pair)
        *seen = ex_mixed(*seen * 3 + what + 1);
}

/* ---- The scheduler's calls. */
static void stand(Runner *me, const char *name, const void *from)
{
    me->is_fresh = false;
    ex->run.patience[me->client->number].points++;
    me->at = name;
    me->from = from;
    ex_note_seen((uintptr_t)name ^ (uintptr_t)from << 1);
    if (++ex->run.patience[me->client->number].steps % MANY == 0 && !me->owes) {
        owe_all(me);
        me->is_long = true;
    }
    if (me->is_long && !can_others(me)) {
        me->owes = 0;
        me->is_long = false;
    }
    if (me->owes && (!has_let_others(me) || !can_others(me))) {
        yield(me, from);
        return;
    }
    me->state = READY;
    go_on(me);
    me->state = RUNNING;
}

static void point(const char *name, const void *from)
{
    if (is_set_up() || !ex->run.is_running || ex->run.is_alone || !name)
        return;
    Runner *me = mine();
    if (me->is_fresh) {
        me->is_fresh = false;
        return;
    }
    ex->run.patience[me->client->number].accesses = 0;
    stand(me, name, from);
}

/* It tried for a lock in vain, or looked whether something is there: where it does so again and again the next points let others go. */
static void looked(const void *object, const void *from)
{
    if (!is_set_up() && ex->run.is_running && !ex->run.is_alone && is_in_vain(from, (uintptr_t)object, 0))
        owe_all(mine());
}

static void look_at(Runner *me, const void *address, size_t size, const void *from)
{
    uint64_t value = 0;
    if (ex_is_heap(address) || ex_is_program(address))
        memcpy(&value, address, size < sizeof value ? size : sizeof value);
    if (is_in_vain(from, (uintptr_t)address, value) || ++ex->run.patience[kz_me->number].accesses % ACCESSES == 0)
        owe_all(me);
}

/* What it sees counts once it goes on: what others do before that may change it. */
void ex_memory_point(const void *address, size_t size, const void *from)
{
    Runner *me = mine();
    if (ex->run.is_alone || me->state != RUNNING || me->client->inside || !ex->run.is_running)
        return;
    if (!ex->search.is_coarse)
        stand(me, "memory", from);
    look_at(me, address, size, from);
    if (ex->search.is_coarse && me->owes && (!has_let_others(me) || !can_others(me)))
        yield(me, from);
}

static unsigned choose_answer(unsigned count, KzChoice what, const char *name)
{
    if (is_set_up() || !ex->run.is_running || ex->run.is_alone)
        return 0;
    bool is_time = what == KZ_CHOICE_TIME, is_inside = what == KZ_CHOICE_INSIDE;
    bool is_asked = is_inside ? ex->search.has_inside || ex->search.replay || ex->run.is_guided : is_time ? !ex->run.timeouts : ex->run.fails_used < ex->search.fails || ex->search.replay || ex->run.is_guided;
    if (is_asked)
        ex_use_all();
    unsigned taken = is_asked ? ex_decide(count, is_inside ? ANSWER_INSIDE : ANSWER_FAIL, NULL, false) : 0;
    if (!taken)
        return 0;
    ex->run.fails_used += !is_time && !is_inside;
    ex->run.timeouts += is_time;
    ex->schedule.steps[ex->schedule.length++] = is_inside ? INSIDE : FAIL;
    if (ex->search.is_traced) {
        char text[TEXT];
        snprintf(text, sizeof text, "  %s   %s: %s\n", mine()->name, name, is_time ? "yes" : is_inside ? "goes on inside" : "refused");
        ex_trace_text(text);
    }
    return taken;
}

static void nothing(void)
{
}

/* ---- A client's life. */
/* A worker that isn't through with a work item: it waits for something else than the next one. */
bool ex_is_busy(const Runner *one)
{
    return one->is_worker && !one->thread && one->has_begun && one->state == WAITING && one->can != kz_can_run;
}

static void work(void)
{
    for (;;) {
        KZ_INSIDE();
        kz_wait(kz_can_run, NULL, "a work item");
        if (!kz_run_dpc() && !kz_work())
            kz_fire();
        kz_settle();
    }
}

static void live(void)
{
    Runner *me = mine();
    me->has_begun = true;
    me->is_fresh = !me->is_worker;
    me->state = RUNNING;
    if (me->is_worker)
        work();
    for (size_t at = 0; at < me->script->count; at++)
        if (!(ex->run.left_out[me->client->number] >> at & 1)) {
            unsigned points = ex->run.patience[me->client->number].points;
            KzReply reply = kz_scripted_request(me->script->requests[at], &me->handle);
            ex_note_answer(at, reply.status, reply.status == 0 || ex->run.patience[me->client->number].points > points + 1);
        }
    ex_see_writes();
    me->state = ENDED;
    go_on(me);
}

static void live_beside(void)
{
    Runner *me = mine();
    me->has_begun = true;
    me->state = RUNNING;
    kz_live(me->thread);
    ex_see_writes();
    me->state = ENDED;
    go_on(me);
}

/* A page below each stack isn't there: what runs past it is seen. */
void ex_open_stacks(void)
{
    char *stacks = mmap((void *)STACKS, (size_t)STACK * (RUNNERS + 1), PROT_READ | PROT_WRITE, MAP_PRIVATE | MAP_ANONYMOUS | MAP_NORESERVE | MAP_FIXED, -1, 0);
    for (int at = 0; at <= RUNNERS; at++)
        mprotect(stacks + (size_t)at * STACK, 4096, PROT_NONE);
}

/* What earlier runs left on them is gone: where states are told apart they aren't to differ by that. */
void ex_clear_stacks(void)
{
    for (int at = 0; at <= RUNNERS; at++)
        madvise((char *)STACKS + (size_t)at * STACK + 4096, STACK - 4096, MADV_DONTNEED);
}

bool ex_is_stack(const void *address)
{
    return (uintptr_t)address >= STACKS && (uintptr_t)address < STACKS + (size_t)STACK * (RUNNERS + 1);
}

static void make(Runner *one, int number, void (*life)(void))
{
    void **stands = (void **)top_of(number) - 2 - KEPT;
    memset(stands, 0, (KEPT + 2) * sizeof *stands);
    stands[KEPT] = (void *)(uintptr_t)life;
    one->stands = stands;
    one->state = one->is_worker && life == live ? WAITING : READY;
    one->can = kz_can_run;
    one->at = "the start";
    one->owes = 0;
    one->yields = one->is_long = false;
}

/* ---- Threads beside the clients. Those that began in the set-up have a stack by then, which isn't in the image. */
static char *kept[RUNNERS + 1];

void ex_keep_stacks(void)
{
    ex->run.usual_count = ex->run.most_runners = ex->run.runners_count;
    for (int at = KZ_FIRST_THREAD; at <= ex->run.runners_count; at++) {
        Runner *one = &ex_runners[at];
        one->kept_size = one->state == ENDED ? 0 : (size_t)(top_of(at) - (char *)one->stands);
        kept[at] = ex_map(one->kept_size + 1);
        memcpy(kept[at], top_of(at) - one->kept_size, one->kept_size);
    }
}

static void put_stack_back(int at)
{
    size_t size = ex_runners[at].kept_size;
    memcpy(top_of(at) - size, kept[at], size);
}

/* Between the clients and the first thread there may be places of none. */
static void begin(KzThread *thread)
{
    int number = (int)thread->client.number;
    Runner *one = &ex_runners[number];
    for (int at = ex->run.runners_count + 1; at < number; at++)
        ex_runners[at] = (Runner){.state = ENDED, .is_worker = true};
    *one = (Runner){.client = &thread->client, .thread = thread, .name = thread->name, .is_worker = true, .like = number};
    make(one, number, live_beside);
    ex->run.runners_count = number > ex->run.runners_count ? number : ex->run.runners_count;
    ex->run.most_runners = number > ex->run.most_runners ? number : ex->run.most_runners;
}

/* Before a run and behind it. */
static bool let(KzThread *thread)
{
    Runner *one = &ex_runners[thread->client.number];
    bool is_late = one->state == WAITING && thread->client.timeout && thread->client.until <= kz_now();
    if (!is_set_up() || !(can_go_on(one) || is_late))
        return false;
    one->timed_out = !can_go_on(one);
    ex->run.is_alone = true;
    kz_me = one->client;
    ex_switch(&ex->run.back, one->stands);
    kz_me = &kz_first;
    ex->run.is_alone = false;
    return true;
}

const KzScheduler ex_scheduler = {point, wait, ex_touch, ex_uses, looked, choose_answer, begin, let, ex_see_writes, nothing, ex_say, true, false, true};

/* What a client left on its stack below where it stands: two states aren't to differ by that. */
static void tidy(Runner *one)
{
    if (!ex->search.is_reduced)
        return;
    if (one->state == ENDED)
        one->stands = top_of((int)one->client->number);
    else
        memset((char *)one->stands - BELOW, 0, BELOW);
}

/* Of all stacks, from where each client stands. */
uint64_t ex_stacks_hash(void)
{
    uint64_t hash = 0;
    for (int at = 1; at <= ex->run.runners_count; at++) {
        char *stands = ex_runners[at].state == ENDED ? top_of(at) : ex_runners[at].stands;
        hash += ex_bytes_hash(stands, (size_t)(top_of(at) - stands), (uint64_t)at);
    }
    return hash;
}

void ex_pass_stacks(Store *store)
{
    for (int at = 1; at <= ex->run.runners_count; at++)
        if (ex_runners[at].state != ENDED)
            ex_pass(store, ex_runners[at].stands, (size_t)(top_of(at) - (char *)ex_runners[at].stands));
}

static void make_all(void)
{
    for (int at = 1; at <= ex->run.runners_count; at++)
        if (at >= KZ_FIRST_THREAD)
            put_stack_back(at);
        else if (ex_runners[at].client)
            make(&ex_runners[at], at, live);
    ex->run.current = 0;
    ex_forget_lib_calls();
}

static int choose_apart(Runner *before)
{
    if (ex->run.has_places)
        ex_keep_place();
    return choose(before);
}

/* One run, from the set-up's end, or from where the client of that number stood last, to where nobody can go on. */
void ex_run(int stood)
{
    bool is_apart = ex->search.is_reduced || ex->run.has_places;
    Runner *before = stood ? &ex_runners[stood] : NULL;
    if (!stood)
        make_all();
    else
        kz_me = before->client;
    ex->run.is_running = true;
    for (int client = choose(before); client; client = is_apart ? choose_apart(before) : 0) {
        before = &ex_runners[client];
        ex->run.current = client;
        kz_me = before->client;
        ex_switch(&ex->run.back, before->stands);
        tidy(before);
    }
    kz_me = &kz_first;
}

const Runner *ex_holder_of(const Runner *one)
{
    KzOwnerOf *owner_of = one->state == WAITING && !one->client->timeout ? one->client->owner_of : NULL;
    const KzClient *owner = owner_of ? owner_of(one->client->owned) : NULL;
    return owner ? &ex_runners[owner->number] : NULL;
}

/* Who has what it waits for waits for what another has, and so on, up to what it has itself, or to one who has ended and gives nothing back. */
static bool waits_for_ever(const Runner *one)
{
    const Runner *at = ex_holder_of(one);
    for (int links = 0; at && at != one && at->state != ENDED && links < RUNNERS; links++)
        at = ex_holder_of(at);
    return at && (at == one || at->state == ENDED);
}

/* A thread beside the clients may wait for what never comes, as a service does, but not for one who waits like that. */
bool ex_is_stuck(void)
{
    bool is_stuck = is_any_left();
    for (int at = 1; at <= ex->run.runners_count && !is_stuck; at++)
        is_stuck = ex_runners[at].thread && waits_for_ever(&ex_runners[at]);
    return is_stuck;
}
