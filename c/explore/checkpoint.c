/* Places of a run, with all that it stands on there: the next runs that begin as it did go on from the last of them. A place costs about as much as a run's beginning. */
#include "explore.h"

#include <stddef.h>

enum { PLACES = 128, APART = 6 };
#define ROOM_OF_PLACE (4UL << 20)

typedef struct {
    size_t depth; /* of the path */
    int before;   /* who stood there last */
    int runners;  /* the most that there were so far: what is kept of each memory access depends on it */
    char *bytes;  /* NULL where there was none yet */
} Place;

static struct {
    Place all[PLACES];
    int count;
    bool is_off; /* there is more than a place has room for */
} *places;

void ex_pass(Store *store, void *memory, size_t size)
{
    store->is_full |= size > (size_t)(store->end - store->at);
    if (store->is_full)
        return;
    if (store->is_kept)
        memcpy(store->at, memory, size);
    else
        memcpy(memory, store->at, size);
    store->at += size;
}

/* What isn't of one run stays. */
static void pass_run(Store *store)
{
    uint32_t number = ex->run.number;
    int most = ex->run.most_runners;
    unsigned met = ex->run.met;
    bool has_late_reads = ex->run.has_late_reads;
    ex_pass(store, &ex->run, offsetof(Run, out));
    ex_pass(store, &ex->run.back, sizeof ex->run - offsetof(Run, back));
    ex->run.number = number;
    ex->run.most_runners = most;
    ex->run.met = met;
    ex->run.has_late_reads = has_late_reads;
    ex_pass(store, &ex->path.deviations, sizeof ex->path.deviations);
    ex_pass(store, &ex->path.hash, sizeof ex->path.hash);
    ex_pass(store, &ex->schedule.length, sizeof ex->schedule.length);
    ex_pass(store, &ex->found.count, sizeof ex->found.count);
    ex_pass(store, &ex->output.length, sizeof ex->output.length);
    ex_pass(store, ex->output.text, ex->output.length);
}

static bool pass_all(Place *one, bool is_kept)
{
    Store store = {one->bytes, one->bytes + ROOM_OF_PLACE, is_kept, false};
    pass_run(&store);
    ex_pass_memory(&store);
    ex_pass_stacks(&store);
    ex_pass_clocks(&store);
    return !store.is_full;
}

void ex_open_places(void)
{
    places = ex_map(sizeof *places);
}

void ex_keep_places(bool is)
{
    ex->run.has_places = is;
    places->count = 0;
    places->is_off = false;
}

static Place *new_place(void)
{
    Place *one = &places->all[places->count];
    if (!one->bytes)
        one->bytes = ex_map(ROOM_OF_PLACE);
    *one = (Place){ex->path.depth, ex->run.current, ex->run.most_runners, one->bytes};
    return one;
}

/* All clients stand, and the next one is to be chosen. Where no preemption is left few runs begin as this one does. */
void ex_keep_place(void)
{
    size_t last = places->count ? places->all[places->count - 1].depth : 0;
    bool is_new = ex->path.depth >= last + APART && ex->path.depth == ex->path.length;
    if (!is_new || places->is_off || places->count == PLACES || ex->run.preemptions >= ex->search.bound)
        return;
    places->is_off = !pass_all(new_place(), true);
    places->count += !places->is_off;
}

/* The path doesn't come to it any more, or there are more runners since. */
static bool is_over(const Place *one)
{
    return one->depth >= ex->path.length || one->runners != ex->run.most_runners;
}

/* At a run's beginning: who stood last where it goes on, or 0 where it begins anew. */
int ex_go_back(void)
{
    if (!ex->run.has_places)
        return 0;
    while (places->count && is_over(&places->all[places->count - 1]))
        places->count--;
    if (!places->count)
        return 0;
    Place *one = &places->all[places->count - 1];
    pass_all(one, false);
    ex->path.depth = one->depth;
    return one->before;
}
