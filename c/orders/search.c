/* Depth first: each run is made from its beginning, and each state is looked at once. */
#include "search.h"

enum { RUNS = 1000000 };

static OrWorld world;
/* Whose line it is, and the last thread that wasn't over before it. */
typedef struct {
    uint32_t thread, last;
} Step;
static OR_LIST(Step) path; /* up to where the search stands */

static uint64_t switches_of(const uint32_t *ran, size_t count)
{
    uint64_t found = 0;
    for (size_t at = 1; at < count; at++)
        found += ran[at] != ran[at - 1];
    return found;
}

static char *copied(OrText text)
{
    char *copy = malloc(text.length + 1);
    if (!copy)
        or_no_memory();
    memcpy(copy, text.at, text.length);
    copy[text.length] = 0;
    return copy;
}

static size_t waiting(const OrWorld *at_end)
{
    size_t found = 0;
    for (uint32_t thread = 0; thread < at_end->scenario->threads.count; thread++)
        found += or_waits(at_end, thread);
    return found;
}

static void forget_waits(OrFault *fault)
{
    while (fault->waits.count) {
        OrWait *last = &fault->waits.at[--fault->waits.count];
        free(last->line);
        free(last->answer);
    }
}

static void keep_waits(OrFault *fault)
{
    char room[OR_LINE_ROOM];
    OrText line;
    forget_waits(fault);
    for (uint32_t thread = 0; thread < world.scenario->threads.count; thread++)
        if (or_waits(&world, thread)) {
            OrText answer = or_ask(&world, thread, &line, room);
            *OR_ADD(fault->waits) = (OrWait){world.threads[thread].routine->name, copied(line), copied(answer)};
        }
}

static OrFault *fault_of(OrSearch *search, OrFaultKind kind)
{
    for (size_t at = 0; at < search->count; at++)
        if (search->faults[at].kind == kind)
            return &search->faults[at];
    search->faults[search->count].kind = kind;
    return &search->faults[search->count++];
}

static void keep_run(OrFault *fault)
{
    fault->switches = switches_of(world.ran.at, world.ran.count);
    fault->ran.count = 0;
    for (size_t at = 0; at < world.ran.count; at++)
        *OR_ADD(fault->ran) = world.ran.at[at];
    keep_waits(fault);
}

/* No thread can go on. */
static void end(OrSearch *search)
{
    bool is_stuck = waiting(&world) > 0, is_misused = world.misused > 0;
    search->ends++;
    if (!is_stuck && !is_misused && !or_leaks(&world.script))
        return;
    OrFault *fault = fault_of(search, is_stuck ? OR_STUCK : is_misused ? OR_MISUSED : OR_LEAKED);
    if (!fault->count++ || switches_of(world.ran.at, world.ran.count) < fault->switches)
        keep_run(fault);
}

/* The first thread from there on that goes on; as many as there are where none does. */
static uint32_t moved(uint32_t first)
{
    uint32_t thread = first, count = (uint32_t)world.scenario->threads.count;
    while (thread < count && !or_go_on(&world, thread))
        thread++;
    return thread;
}

static uint32_t last_thread(void)
{
    uint32_t last = (uint32_t)world.scenario->threads.count - 1;
    while (last && world.threads[last].turn == OR_OVER)
        last--;
    return last;
}

static void repeat_path(void)
{
    for (size_t at = 0; at < path.count; at++)
        if (!or_go_on(&world, path.at[at].thread))
            or_wrong(0, "a run went otherwise than before: the manager isn't the same each time");
}

/* Takes a run on to a state that is known, or to its end. The path is then the run's. */
static void follow(OrSearch *search, uint32_t first, const volatile int *stop)
{
    bool is_new = true;
    or_begin_world(&world, search->scenario);
    repeat_path();
    while (is_new && !*stop) {
        uint32_t last = last_thread(), thread = moved(first);
        if (thread == search->scenario->threads.count) {
            if (!first)
                end(search);
            break;
        }
        *OR_ADD(path) = (Step){thread, last};
        first = 0;
        search->steps++;
        is_new = or_is_new(or_key(&world));
        search->states += is_new;
    }
    or_end_world(&world);
}

void or_search(OrSearch *search, const volatile int *stop)
{
    uint32_t first = 0, last = 0;
    for (int run = 0; run < RUNS && !*stop; run++) {
        /* Behind the last thread there is none to be tried. */
        if (first <= last)
            follow(search, first, stop);
        if (*stop || (search->is_first && search->count))
            return;
        search->is_whole = !path.count;
        if (search->is_whole)
            return;
        first = path.at[--path.count].thread + 1;
        last = path.at[path.count].last;
    }
}

static void print(OrText text)
{
    fwrite(text.at, 1, text.length, stdout);
    putchar('\n');
}

static void print_setup(const OrScenario *scenario)
{
    for (size_t at = 0; at < scenario->setup.count; at++)
        print(scenario->setup.at[at].text);
}

/* The run is made once more, for its lines. */
static void print_run(const OrFault *fault)
{
    char room[OR_LINE_ROOM];
    or_begin_world(&world, world.scenario);
    for (size_t at = 0; at < fault->ran.count; at++) {
        const OrThread *thread = &world.threads[fault->ran.at[at]];
        if (!at || fault->ran.at[at] != fault->ran.at[at - 1])
            printf("# %.*s\n", (int)thread->routine->name.length, thread->routine->name.at);
        print(or_line_of(&world, thread, room, sizeof room));
        or_go_on(&world, fault->ran.at[at]);
    }
    or_end_world(&world);
}

static void print_fault(const OrFault *fault)
{
    static const char *const names[] = {[OR_STUCK] = "stuck: no thread can go on", [OR_MISUSED] = "a context was used to which no reference was held",
        [OR_LEAKED] = "a callback left a reference behind"};
    printf("# at %llu of the ends: %s\n", (unsigned long long)fault->count, names[fault->kind]);
    for (size_t at = 0; at < fault->waits.count; at++) {
        const OrWait *wait = &fault->waits.at[at];
        printf("#   %.*s waits: `%s` answers `%s`\n", (int)wait->name.length, wait->name.at, wait->line, wait->answer);
    }
}

void or_report(const OrSearch *search)
{
    printf("# %llu states, %llu steps, %llu ends%s\n", (unsigned long long)search->states, (unsigned long long)search->steps, (unsigned long long)search->ends,
        search->is_whole ? "" : "; the search isn't whole");
    for (size_t at = 0; at < search->count; at++)
        print_fault(&search->faults[at]);
    if (!search->count) {
        puts("# nothing was found");
        return;
    }
    print_setup(search->scenario);
    print_run(&search->faults[0]);
}
