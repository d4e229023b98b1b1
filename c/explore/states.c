/* States of runs. What comes of a run depends on its memory alone, on the stacks of its clients, and on what orders them: so a run that comes to a state that was met before finds
 * nothing else from there. A state is known by 64 bits of a hash. Where preemptions are bounded, one that was met with fewer of them left isn't known. */
#include "explore.h"

#include <sys/mman.h>

typedef struct {
    uint64_t key;
    uint32_t left; /* preemptions, and one more; 0 where there is no state */
} Known;

static struct {
    Known *table;
    size_t size, count;
} *states;

/* As many as there is memory for; a table that is nearly full is slow. */
void ex_open_states(void)
{
    states = ex_map(sizeof *states);
    states->size = 1024;
    while (2 * states->size * sizeof(Known) <= ex->search.memory)
        states->size *= 2;
    states->table = ex_map(states->size * sizeof(Known));
}

void ex_forget_states(void)
{
    if (!states || !states->count)
        return;
    madvise(states->table, states->size * sizeof(Known), MADV_DONTNEED);
    states->count = 0;
}

uint64_t ex_states_count(void)
{
    return states ? states->count : 0;
}

uint64_t ex_mixed(uint64_t value)
{
    value ^= value >> 33;
    value *= 0xff51afd7ed558ccdULL;
    value ^= value >> 33;
    value *= 0xc4ceb9fe1a85ec53ULL;
    return value ^ value >> 33;
}

static uint64_t folded(uint64_t a, uint64_t b)
{
    unsigned __int128 product = (unsigned __int128)a * b;
    return (uint64_t)product ^ (uint64_t)(product >> 64);
}

uint64_t ex_bytes_hash(const void *bytes, size_t size, uint64_t seed)
{
    const uint8_t *at = bytes, *end = at + size;
    uint64_t hash = ex_mixed(seed + 0x9e3779b97f4a7c15ULL) ^ size, pair[2];
    for (; end - at >= 16; at += 16) {
        memcpy(pair, at, 16);
        hash = folded(pair[0] ^ 0xa0761d6478bd642fULL, pair[1] ^ hash) + 0xe7037ed1a0b428dbULL;
    }
    memset(pair, 0, sizeof pair);
    memcpy(pair, at, (size_t)(end - at));
    return ex_mixed(folded(pair[0] ^ 0x8ebc6af09c88c6e3ULL, pair[1] ^ hash) ^ hash);
}

/* ---- What isn't in the program's memory, and what comes depends on. */
static uint64_t said(void)
{
    uint64_t hash = 0;
    const char *text = ex->output.text, *end = ex->output.text + ex->output.length;
    while (ex->search.wants_ends && text < end) {
        const char *line = memchr(text, '\n', (size_t)(end - text));
        size_t length = line ? (size_t)(line - text) + 1 : (size_t)(end - text);
        hash += ex_bytes_hash(text, length, 1);
        text += length;
    }
    return hash;
}

static uint64_t key(int stays)
{
    uint64_t rest = (uint64_t)ex->run.fails_used << 32 | (uint64_t)ex->run.timeouts << 8;
    uint64_t hash = ex_memory_hash() + 3 * ex_stacks_hash() + 5 * ex_clocks_hash() + 7 * said() + 11 * ex_patience_hash() + 13 * ex_buffers_hash() + 17 * ex_changes_hash();
    return ex_mixed(hash) + ex_mixed(rest + 1) + (ex->search.has_no_bound ? 0 : ex_mixed((uint64_t)stays + 2) * 3);
}

uint64_t ex_state_key(void)
{
    return key(0);
}

static Known *find(uint64_t wanted)
{
    size_t at = (size_t)ex_mixed(wanted) & (states->size - 1);
    while (states->table[at].left && states->table[at].key != wanted)
        at = (at + 1) & (states->size - 1);
    return &states->table[at];
}

/* The run comes back to where it was, only by going on as it does where nothing else is chosen, and each client that could go on all the time did: it never ends. */
static bool is_loop(uint64_t wanted)
{
    uint32_t able = ex->run.able;
    for (size_t at = ex->path.depth; at > 0 && !ex->path.nodes[at - 1].taken; at--) {
        able &= ex->path.nodes[at - 1].able;
        if (ex->path.nodes[at - 1].key != wanted)
            continue;
        for (size_t step = ex->path.nodes[at - 1].place; step < ex->schedule.length; step++)
            if (ex->schedule.steps[step] < FIRST_SIGN)
                able &= ~(1U << ex->schedule.steps[step]);
        return !able;
    }
    return false;
}

/* Whether the state at a new choice was met before, with as many preemptions left; if not, it is from now on. `stays` is the client that could go on without one; 0 if none can. */
bool ex_is_known(int stays)
{
    uint64_t wanted = key(stays);
    uint32_t left = ex->search.has_no_bound ? 1 : ex->search.bound - ex->run.preemptions + 1;
    Known *one = find(wanted);
    ex->path.nodes[ex->path.depth].key = wanted;
    if (one->left >= left) {
        if (is_loop(wanted))
            ex_found(STUCK, "ENDLESS: the run comes back to where it was");
        return true;
    }
    if (one->left == 0 && ++states->count > states->size / 8 * 7)
        ex_end_search("states");
    *one = (Known){wanted, left};
    return false;
}
