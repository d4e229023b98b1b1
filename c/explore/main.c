/* The explorer's program: it runs a scenario under every schedule with at most so many preemptions. */
#include "explore.h"
#include "core/coverage.h"
#include "core/process.h"
#include "core/said.h"
#include "run/open.h"
#include "run/runfile.h"

#include <signal.h>
#include <stdlib.h>
#include <sys/mman.h>
#include <time.h>
#include <unistd.h>

extern const KzDriver kz_drivers[];
extern const size_t kz_drivers_count;
enum { WARM_UP = 200 };

Explorer *ex;

/* ---- One run. */
static void begin_run(void)
{
    ex_put_back();
    kz.is_journal_ordered = ex->search.minds & MET_JOURNAL;
    ex->path.depth = ex->found.count = ex->schedule.length = ex->output.length = 0;
    ex->run.preemptions = ex->run.switches = ex->run.fails_used = ex->run.timeouts = ex->run.steps = ex->path.deviations = 0;
    ex->path.hash = 0;
    ex->run.unmet[0] = 0;
    ex->run.is_given_up = ex->run.is_alone = false;
    ex->run.able = ex->run.asleep = ex->run.stayed_at = ex->run.chose_at = 0;
    memset(ex->run.seen, 0, sizeof ex->run.seen);
    ex->run.runners_count = ex->run.usual_count;
    memset(ex->run.patience, 0, sizeof ex->run.patience[0] * ((size_t)ex->run.most_runners + 1));
    ex_hooked = NULL;
    ex_empty_buffers();
    ex_begin_changes();
    ex_start_clocks();
}

/* Who stood where it goes on, or 0. */
static int start_run(void)
{
    ex->run.number++;
    ex->search.runs++;
    int stood = ex_go_back();
    if (!stood)
        begin_run();
    if (ex->search.is_thinned)
        ex_order_back_to(ex->run.steps);
    return stood;
}

/* Whether another waits for what it has. */
static bool is_waited_for(const Runner *holder)
{
    for (int at = 1; at <= ex->run.runners_count; at++)
        if (ex_holder_of(&ex_runners[at]) == holder)
            return true;
    return false;
}

/* Those that are beside the clients and in nobody's way wait as they should. */
static bool is_told(const Runner *one)
{
    bool is_idle = one->is_worker && !ex_is_busy(one), is_in_way = one->thread && (ex_holder_of(one) || is_waited_for(one));
    return one->state != ENDED && (!is_idle || is_in_way);
}

static void tell_stuck(void)
{
    char text[TEXT];
    size_t used = (size_t)snprintf(text, sizeof text, "STUCK");
    for (int at = 1; at <= ex->run.runners_count && used + 1 < sizeof text; at++) {
        const Runner *one = &ex_runners[at];
        const Runner *holder = is_told(one) && !one->client->names_owner ? ex_holder_of(one) : NULL;
        if (is_told(one))
            used += (size_t)snprintf(text + used, sizeof text - used, "\n  %s waits for %s%s%s%s", one->name, one->client->waits, holder ? ": " : "", holder ? holder->name : "", holder ? " has it" : "");
    }
    ex_found_lines(STUCK, text);
}

static int compare_lines(const void *a, const void *b)
{
    return strcmp(*(char *const *)a, *(char *const *)b);
}

/* What was said, as a set of lines. */
static void tell_end(void)
{
    static char *lines[512];
    char text[TEXT] = "END", *rest = NULL;
    size_t count = 0, used = strlen(text);
    for (char *line = strtok_r(ex->output.text, "\n", &rest); line && count < 512; line = strtok_r(NULL, "\n", &rest))
        lines[count++] = line;
    qsort(lines, count, sizeof lines[0], compare_lines);
    for (size_t at = 0; at < count && used + 1 < sizeof text; at++)
        if (!at || strcmp(lines[at], lines[at - 1]) != 0)
            used += (size_t)snprintf(text + used, sizeof text - used, "\n  %s", lines[at]);
    ex_found_lines(END, text);
}

static void finish_run(void)
{
    if (ex_is_stuck()) {
        tell_stuck();
        return;
    }
    kz_end();
    if (ex->run.unmet[0])
        ex_found(TOLD, ex->run.unmet);
    if (ex->search.wants_ends)
        tell_end();
}

void ex_run_once(void)
{
    int stood = start_run();
    if (sigsetjmp(ex->run.out, 0) == 0) {
        ex_run(stood);
        finish_run();
    } else {
        ex_break_step();
    }
    ex->run.is_running = false;
    ex->run.met |= kz.is_journal_read ? MET_JOURNAL : 0;
    kz_me = &kz_first;
    ex_keep_found();
}

/* ---- The search. */
static double seconds(void)
{
    struct timespec now;
    clock_gettime(CLOCK_MONOTONIC, &now);
    return (double)now.tv_sec + (double)now.tv_nsec / 1e9;
}

Counted ex_count_now(void)
{
    Counted now = {.bound = ex->search.has_no_bound ? NO_BOUND : ex->search.bound, .longest = ex->total.longest, .schedules = ex->total.schedules, .given_up = ex->total.given_up, .states = ex_states_count(), .seconds = seconds() - ex->total.since};
    memcpy(now.counts, ex->total.counts, sizeof now.counts);
    return now;
}

static void put_counts(const Counted *one)
{
    if (one->bound == NO_BOUND)
        printf("no bound: ");
    else
        printf("bound %u: ", one->bound);
    printf("%llu schedules, ", (unsigned long long)one->schedules);
    if (ex->search.is_reduced)
        printf("%llu given up, ", (unsigned long long)one->given_up);
    if (ex->search.is_reduced)
        printf("%llu states, ", (unsigned long long)one->states);
    printf("%.2f s, longest %u; told %llu, races %llu, stuck %llu, crashed %llu\n", one->seconds, one->longest, (unsigned long long)one->counts[TOLD], (unsigned long long)one->counts[RACE],
           (unsigned long long)one->counts[STUCK], (unsigned long long)one->counts[CRASH]);
    if (ex->total.unknown)
        printf("the search ends here, since %s: what is after it can't be judged\n", ex->total.unknown);
    if (ex->total.full)
        printf("the memory for %s is full: the search ends here, and isn't whole (--memory)\n", ex->total.full);
}

static void note_counts(void)
{
    Counted now = ex_count_now();
    if (ex->total.counted_count < BOUNDS)
        ex->total.counted[ex->total.counted_count++] = now;
    if (!ex->total.is_silent)
        put_counts(&now);
}

/* How much of the bound is behind the path, if each choice had as much below it as the others at its place. */
static double done_part(void)
{
    double part = 0, each = 1;
    for (size_t at = 0; at < ex->path.length && each > 1e-12; at++) {
        each /= ex->path.nodes[at].count;
        part += each * ex->path.nodes[at].taken;
    }
    return part;
}

static void show_progress(void)
{
    double now = seconds(), part;
    if (now - ex->total.shown < 5)
        return;
    ex->total.shown = now;
    part = done_part();
    if (isatty(STDERR_FILENO) && (!ex->total.is_silent || !ex->search.shard))
        fprintf(stderr, "bound %u: %llu schedules, %.0f s; about %.1f %% of it are done%s\n", ex->search.bound, (unsigned long long)ex->total.schedules, now - ex->total.since, 100 * part,
                ex->total.is_silent ? ", as this part of it shows" : "");
}

/* An interrupted search is saved where it stands, and each minute. */
static bool is_to_end(void)
{
    if (ex->total.full || ex->total.unknown)
        return true;
    if (ex->search.runs % 1024 && !ex->total.is_interrupted)
        return false;
    show_progress();
    if (ex->total.resume_path[0] && (ex->total.is_interrupted || seconds() - ex->total.saved > 60)) {
        ex->total.saved = seconds();
        ex_save(ex->total.resume_path);
    }
    return ex->total.is_interrupted;
}

/* What it didn't mind before may have left orders out. */
static bool is_to_begin_anew(void)
{
    unsigned before = ex->search.minds;
    ex->search.minds |= ex->search.is_thinned ? ex->run.met : 0;
    return ex->search.minds != before;
}

static void begin_bound(void)
{
    ex->total.since = seconds();
    if (ex->total.is_resumed) {
        ex->total.schedules = ex->total.resumed.schedules, ex->total.given_up = ex->total.resumed.given_up, ex->total.longest = ex->total.resumed.longest;
        memcpy(ex->total.counts, ex->total.resumed.counts, sizeof ex->total.counts);
        ex->total.since -= ex->total.resumed.seconds;
        ex->total.is_resumed = false;
        ex_go_on_in_order();
        if (is_to_begin_anew())
            ex_go_on_in_order(); /* as before it was interrupted */
        return;
    }
    ex->path.length = 0;
    ex->total.schedules = ex->total.given_up = 0;
    ex_forget_states();
    memset(ex->total.counts, 0, sizeof ex->total.counts);
    for (int at = 0; at < ex->kinds.count; at++) {
        Kind *kind = &ex->kinds.all[at];
        kind->earlier = kind->count ? kind->count : kind->earlier;
        kind->count = 0;
    }
}

/* False if it was interrupted. */
static bool search_bound(void)
{
    bool is_more = true;
    begin_bound();
    ex_keep_places(!ex->search.is_reduced && !kz_binaries.put_back); /* a binary's machine is more than its memory */
    while (is_more && !is_to_end()) {
        ex_run_once();
        if (is_to_begin_anew())
            begin_bound();
        else
            is_more = ex_advance();
    }
    ex_keep_places(false);
    if (is_more && ex->total.is_interrupted)
        return false;
    note_counts();
    return true;
}

void ex_search(void)
{
    unsigned last = ex->search.has_no_bound ? 0 : ex->search.asked_bound, first = ex->total.is_resumed ? ex->total.resumed.bound : (unsigned)ex->total.counted_count;
    bool is_whole = true;
    if (ex->search.has_no_bound) {
        ex->search.bound = UINT32_MAX;
        is_whole = search_bound();
    }
    for (ex->search.bound = first; !ex->search.has_no_bound && ex->search.bound <= last && is_whole && !ex->total.full && !ex->total.unknown; ex->search.bound++)
        is_whole = search_bound();
    ex->total.is_whole = is_whole;
    if (is_whole)
        return;
    ex->search.bound -= !ex->search.has_no_bound;
    if (ex->total.resume_path[0])
        ex->total.is_unwritten = ex_save(ex->total.resume_path) != 0;
}

/* Before the search, and before a schedule that is played again: runs without a preemption say how long one is, and which memory is shared by more than locks. Nothing of them is told. */
static void warm_up(void)
{
    bool is_reduced = ex->search.is_reduced, has_no_bound = ex->search.has_no_bound, is_coarse = ex->search.is_coarse, is_traced = ex->search.is_traced, wants_ends = ex->search.wants_ends, is_thinned = ex->search.is_thinned;
    unsigned fails = ex->search.fails, shards = ex->search.shards, runs = 0;
    ex->search.is_reduced = ex->search.has_no_bound = ex->search.is_traced = ex->search.wants_ends = ex->search.is_thinned = false;
    ex->search.is_coarse = true;
    ex->search.bound = ex->search.fails = ex->search.shards = ex->search.late = 0;
    ex_learn_cells(true);
    do {
        ex_run_once();
        if (!runs)
            ex->path.usual_steps = ex->run.steps ? ex->run.steps : 1;
    } while (++runs < WARM_UP && !ex->total.unknown && ex_advance());
    ex_learn_cells(false);
    ex_clear_stacks();
    ex_clear_arenas();
    ex->search.is_reduced = is_reduced, ex->search.has_no_bound = has_no_bound, ex->search.is_coarse = is_coarse, ex->search.is_traced = is_traced, ex->search.wants_ends = wants_ends, ex->search.is_thinned = is_thinned;
    ex->search.fails = fails, ex->search.shards = shards;
    ex->search.late = ex->search.asked_late != LATE_UNSAID ? ex->search.asked_late : ex->run.has_late_reads;
    ex->kinds.count = 0;
    ex->total.schedules = ex->path.length = 0;
    ex->total.longest = 0;
    ex->total.unknown = ex->total.full = NULL;
    memset(ex->total.counts, 0, sizeof ex->total.counts);
}

/* Those of a part are each Nth one. */
static void draw_runs(void)
{
    unsigned shards = ex->search.shards ? ex->search.shards : 1, shard = ex->search.shard;
    ex->total.since = seconds();
    ex->search.shards = 0;
    for (uint64_t at = shard; at < ex->search.asked_runs && !ex->total.unknown && !ex->total.is_interrupted; at += shards) {
        ex->search.bound = UINT32_MAX;
        ex->search.seed = ex->search.asked_seed + at;
        ex->path.random = ex->search.seed * 0x9e3779b97f4a7c15ULL | 1;
        if (ex->search.pct)
            ex_draw_priorities();
        ex_run_once();
    }
    ex->search.shards = shards, ex->search.bound = 0;
    if (!ex->total.is_silent)
        printf("seeds %llu to %llu: ", (unsigned long long)ex->search.asked_seed, (unsigned long long)(ex->search.asked_seed + ex->search.asked_runs - 1));
    note_counts();
    ex->total.is_whole = !ex->total.is_interrupted;
}

/* ---- The set-up, in order: 0, or the exit status. */
static int set_up(void)
{
    kz_scheduler = &ex_scheduler;
    return kz_open(kz_drivers, kz_drivers_count) != 0 ? 2 : kz_set_up(ex->scenario.setup, ex->scenario.setup_count);
}

static int status(void)
{
    bool is_found[LIMITED + 1] = {false};
    for (int at = 0; at < ex->kinds.count; at++)
        is_found[ex->kinds.all[at].of] = true;
    if (is_found[CRASH])
        return 139;
    if (is_found[STUCK])
        return 6;
    if (is_found[TOLD] || is_found[RACE] || (ex->search.is_strict && is_found[LIMITED]))
        return 5;
    return ex->total.full || ex->total.unknown || !ex->total.is_whole ? 4 : 0;
}

/* Where nothing was found it may be that nothing was tried. */
static int status_of_search(void)
{
    int found = status();
    return found ? found : ex_is_idle();
}

static int play(const Asked *asked)
{
    ex->search.replay = asked->replay;
    ex->search.is_thinned = false;
    ex->search.bound = UINT32_MAX;
    ex->search.fails = 0;
    ex_run_once();
    ex->total.is_whole = true;
    if (asked->page)
        return ex_put_page(asked->page) ? 3 : status();
    if (ex->search.is_traced)
        ex_trace_end();
    else
        ex_report();
    return status();
}

/* A page of the first kind that counts. */
static int put_page_of_first(const char *path)
{
    int ended = status(), at = 0;
    while (at < ex->kinds.count && (ex->kinds.all[at].of == END || ex->kinds.all[at].of == LIMITED))
        at++;
    if (at == ex->kinds.count) {
        fprintf(stderr, "nothing was found: there is no page\n");
        return ended;
    }
    Asked again = {.replay = ex->kinds.all[at].schedule, .page = path};
    ex->search.seed = 0;
    ex->total.counted_count = 0;
    ex->search.is_traced = true;
    ex->search.is_reduced = ex->search.has_no_bound = false;
    ex->kinds.count = 0;
    memset(ex->total.counts, 0, sizeof ex->total.counts);
    return play(&again) == 3 ? 3 : ended;
}

static int end_search(const Asked *asked)
{
    if (asked->saves && ex_save(asked->saves) != 0)
        ex->total.is_unwritten = true;
    if (!ex->total.is_whole && ex->total.resume_path[0] && !ex->total.is_unwritten)
        printf("interrupted: the same words go on, with --resume %s\n", ex->total.resume_path);
    else if (!ex->total.is_whole)
        printf("interrupted: the search isn't whole, and what it has found follows\n");
    if (asked->learns && !ex->total.full)
        return ex_learn_ends(asked->learns);
    if (asked->expects && !ex->total.full)
        return ex_compare_ends(asked->expects);
    if (asked->shrinks)
        ex_shrink();
    ex_report();
    ex_put_refused();
    return asked->page ? put_page_of_first(asked->page) : status_of_search();
}

/* What was merged is shown as if it were searched here. */
static void put_merged(void)
{
    if (ex->search.asked_seed && ex->total.counted_count)
        printf("seeds %llu to %llu: ", (unsigned long long)ex->search.asked_seed, (unsigned long long)(ex->search.asked_seed + ex->search.asked_runs - 1));
    for (int at = 0; at < ex->total.counted_count; at++)
        put_counts(&ex->total.counted[at]);
}

static int search_and_end(const Asked *asked)
{
    void (*search)(void) = ex->search.asked_seed ? draw_runs : ex_search;
    int ended = 0;
    if (asked->resume)
        snprintf(ex->total.resume_path, sizeof ex->total.resume_path, "%s", asked->resume);
    if (asked->jobs > 1)
        ended = ex_search_jobs(asked->jobs, asked->resume, search);
    else if (asked->resume)
        ended = ex_resume(asked->resume);
    if (ended == 3)
        return 3;
    if (asked->jobs > 1)
        ex->total.is_whole = !ended;
    put_merged();
    if (asked->jobs <= 1 && !ex->total.is_whole)
        search();
    return end_search(asked);
}

static int merge(const Asked *asked)
{
    int ended = ex_merge(asked->merges, asked->merges_count);
    ex->total.is_whole = !ended;
    if (ended == 3)
        return 3;
    put_merged();
    ex_report();
    ex_put_refused();
    return ended ? ended : status_of_search();
}

/* The search stops at its next run. A second time the program itself does. */
static void interrupt(int number)
{
    ex->total.is_interrupted = true;
    signal(number, SIG_DFL);
}

/* What was shown is written, or a sentence says that it isn't. */
static int end(int ended)
{
    if (fflush(stdout) == 0 && !ferror(stdout))
        return ex->total.is_unwritten ? 3 : ended;
    fprintf(stderr, "standard output: can't be written\n");
    return 3;
}

/* Of a binary it isn't known what its steps use. For pairs of steps it has to be known, however the search is asked for. */
static bool is_to_be_thinned(const Asked *asked)
{
    bool is_drawn = asked->replay || ex->search.asked_seed, is_searched = !is_drawn && !ex->search.is_whole && !ex->search.is_reduced;
    return (is_searched || asked->commutes) && !kz_binaries.put_back;
}

/* The objects of the clients' threads are there before any of them asks: else the first would make them, and the others find them. */
static void make_threads(void)
{
    for (int at = 1; at <= ex->run.runners_count; at++)
        if (ex_runners[at].client)
            kz_thread_object(ex_runners[at].client->process, ex_runners[at].client->thread);
}

int main(int count, char **words)
{
    Asked asked = {.jobs = 1};
    kz_count_lines();
    ex_open_memory();
    ex = ex_map(sizeof *ex);
    ex->room.bytes = ex_map(ROOM);
    setvbuf(stdout, ex_map(1 << 16), _IOLBF, 1 << 16);
    ex->search.is_quiet = true;
    ex->search.memory = 1UL << 30;
    ex->search.asked_bound = 2;
    ex->search.asked_late = LATE_UNSAID;
    ex->search.asked_runs = 1000;
    if (!ex_read_words(count, words, &asked))
        return 2;
    if (asked.merges_count)
        return end(merge(&asked));
    if (asked.is_debugged)
        return ex_debug(count, words);
    ex_open_stacks();
    ex_watch_binaries();
    if (ex_read(asked.scenario) != 0)
        return 2;
    int refused = set_up();
    if (refused)
        return refused;
    ex_name_search(asked.search, asked.scenario);
    ex_open_shadow();
    ex_open_places();
    ex_open_order();
    ex_watch_faults();
    if (asked.replay || ex->search.asked_seed || asked.commutes)
        ex->search.is_reduced = ex->search.has_no_bound = false;
    ex->search.is_thinned = is_to_be_thinned(&asked);
    ex->search.is_spread = ex->search.shards || asked.jobs > 1;
    if (ex->search.is_reduced)
        ex_open_states();
    kz_is_deaf = !ex->search.wants_ends && !ex->search.is_traced && !asked.page;
    make_threads();
    ex_keep_stacks();
    ex_take_image();
    warm_up();
    if (!asked.replay)
        signal(SIGINT, interrupt), signal(SIGTERM, interrupt);
    return end(asked.replay ? play(&asked) : asked.commutes ? ex_try_pairs(asked.commutes) : search_and_end(&asked));
}
