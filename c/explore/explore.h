/* What the modules of the explorer share: one process that runs a scenario again and again, each time under another schedule. */
#ifndef KZ_EXPLORE_H
#define KZ_EXPLORE_H

#include "core/beside.h"
#include "core/client.h"
#include "run/scenario.h"

#include <setjmp.h>

enum {
    RUNNERS = KZ_FIRST_THREAD + KZ_THREADS - 1, /* clients, the one of work items, and threads beside them */
    DEVIATIONS = 2,     /* from the usual order: so many say whose part of a search a run is */
    STEPS = 20000,      /* of a run: one that has more is endless */
    PATH = 20000,       /* choices of a run */
    KINDS = 1024,       /* kinds of ends and of what is told */
    TEXT = 4096,
    DEPTH = 16, /* of --pct */
    OUTPUT = 1 << 18,   /* what a run says */
    WORKERS = 4
};

/* What a choice is of: who goes on, whether a call is refused, whether an operation goes on inside a call, whether others see a write later, whether they do by now, and whether a program
 * has changed what a driver reads again. */
typedef enum { SWITCH, ANSWER_FAIL, ANSWER_INSIDE, ANSWER_LATE, ANSWER_SEEN, ANSWER_CHANGED } Asks;

/* ---- A client of the scenario: a coroutine of its own. */
typedef enum { READY, RUNNING, WAITING, ENDED } State;

typedef struct {
    KzClient *client; /* NULL where no runner is */
    void *stands; /* where its stack ends, while another runs */
    State state;
    bool has_begun, is_worker, timed_out;
    uint32_t owes;                /* clients that go first, where it has looked again and again: a bit for each */
    bool yields, has_moved;       /* it lets them go; another went since */
    bool is_long;                 /* they go first since it went on for long, and not in vain */
    bool is_fresh;                /* it has begun, and done nothing yet */
    int like;                     /* the first client with the same lines */
    KzThread *thread;             /* of a thread beside the clients */
    size_t kept_size;             /* of one that began in the set-up: its stack, from where it stands */
    KzCan *can;                   /* what it waits for */
    void *what;
    const char *at;               /* where it stands */
    const void *from;
    const char *name;
    const KzScript *script;
    uint64_t handle;              /* that of its last create, for $ */
} Runner;

/* A client's writes that others don't see yet (buffer.c). */
enum { LATE_WRITES = 8 };
typedef struct {
    struct {
        void *at;
        size_t size;
        uint64_t other; /* while its client runs, what others see there; else what its client sees */
    } writes[LATE_WRITES];
    unsigned count;
    const void *last; /* what it wrote as volatile, and a late write could still be of */
} Buffer;

/* Bytes of a caller's own buffer (change.c). */
enum { READS = 64 };
typedef struct {
    uintptr_t start, end;
} Read;

/* How often a place of the driver's code found the same where it looked, since another client went or it changed something itself. */
enum { LOOKS = 8, LOOKS_ENOUGH = 3 };
typedef struct {
    struct {
        const void *from;
        uintptr_t at;
        uint64_t value;
        unsigned count;
    } looks[LOOKS];
    bool has_looked;
    unsigned accesses; /* points at memory since its last call of the kit */
    unsigned points;   /* that it came to: a request that is refused at once has none behind its own */
    unsigned steps;    /* of its own */
    unsigned alone;    /* how often it went on in vain, since nobody else could */
} Patience;

/* What a step uses (footprint.c): a place of memory by the number of its eight bytes, or what the host has there. */
enum { USES = 64 };
typedef struct {
    uintptr_t tag;
    KzUse how;
} Use;

typedef struct {
    bool is_all; /* it may be everything */
    bool is_by_blocks; /* of memory it has blocks, and no words */
    unsigned count;
    Use uses[USES];
} Footprint;

typedef struct {
    uint8_t count, taken;
    bool is_switch;
    bool may_stay, is_met; /* of the first option (order.c): no other leads to what needs fewer preemptions; something later uses what its step used */
    bool is_cut;           /* parts of the search begin there: what a part doesn't search decides nothing */
    uint8_t first, clients[RUNNERS];
    uint32_t asleep, tried; /* who slept as it came up, a bit for each; of whom it is known what the step used */
    uint64_t key; /* of the state, where states are told apart */
    uint32_t able; /* who could go on, a bit for each */
    uint32_t place; /* in the schedule */
    uint64_t stands; /* who stands where, as a hash; 0 where it isn't known */
} Node;

/* ---- What was found: of each kind the schedule with the fewest preemptions, then switches, then steps. */
typedef enum { TOLD, RACE, STUCK, CRASH, END, LIMITED } KindOf;

/* Of a race: two accesses, memory that is freed beside one, one behind that. */
typedef enum { NO_RACE, BETWEEN_ACCESSES, BESIDE_FREEING, AFTER_FREEING } RaceSort;

typedef struct {
    KindOf of;
    RaceSort sort;
    uint64_t sides[2]; /* as Found has them */
    char *key, *text, *schedule;
    uint64_t count, earlier; /* in this bound; in the one before it */
    unsigned preemptions, switches, steps;
    uint64_t seed;
} Kind;

/* What the schedules of one bound came to. */
enum { BOUNDS = 64, NO_BOUND = 0xffffffff };
typedef struct {
    unsigned bound, longest;
    uint64_t schedules, given_up, states, counts[LIMITED + 1];
    double seconds;
} Counted;

/* What a run has found so far, until its end. */
typedef struct {
    KindOf of;
    RaceSort sort;
    char text[TEXT];
    uintptr_t sides[2]; /* of a race: the driver's code on its two sides, as addresses; 0 where there is none */
    unsigned preemptions, switches, steps;
    size_t schedule_length;
} Found;

/* What happens in a run that is traced. */
enum { EVENTS = 1 << 17 };
typedef enum { EVENT_STEP, EVENT_SAID, EVENT_TOUCH, EVENT_TAKES, EVENT_GIVES, EVENT_FOUND } EventKind;
typedef struct {
    EventKind kind;
    unsigned client, step;
    const char *text;
    const void *from;
    const void *written; /* whose value is known at the next step */
    size_t size;
    const void *object; /* that is taken or given */
    const char *name;   /* of it, in the text */
    bool is_lock;       /* it is one, which the client holds from now on, or no more */
    bool is_preemption;
} Event;

/* What costs schedules where nobody comes to it: more words of memory in a step than a footprint has, and who reads the volume's journal. A search that comes to one begins anew, and minds it from then on. */
enum { MET_MANY_WORDS = 1, MET_JOURNAL = 2 };

/* How the scenario is searched (options.c). */
typedef struct {
    unsigned bound, fails, shard, shards;
    bool wants_ends, is_traced, is_quiet, is_strict; /* is_strict: a limit counts */
    unsigned changes; /* of a run: what is read again of a caller's own buffer is another */
    unsigned late, asked_late; /* writes of a run that others may see later; as the words have it, or LATE_UNSAID */
    unsigned asked_bound, workers, stops_at; /* the last bound; how many work items run at once; the step before which a debugger stops, or 0 */
    uint64_t asked_seed, asked_runs;
    bool is_coarse; /* no points at memory */
    bool has_inside; /* the rest of an operation may run inside its completion */
    bool is_reduced; /* a run that comes to a known state is given up */
    bool is_whole; /* each order is asked for */
    bool is_spread;  /* it is one of parts, of which each is searched as if it were alone */
    bool is_thinned; /* of orders that differ by steps which come to the same in either order one is searched */
    bool has_no_bound;
    unsigned minds; /* of what was MET: steps say what they use of it */
    size_t memory; /* that the explorer's own tables may take */
    uint64_t seed, runs;
    unsigned pct; /* how many changes of priority a drawn run may need, and one; 0 for a coin at each choice */
    const char *replay;
    char name[512]; /* what is searched, and by which words */
} Search;

/* The path, and where the run is on it (path.c). */
typedef struct {
    Node nodes[PATH];
    size_t length, depth, goes_to; /* goes_to: a run is given up behind so many choices, since it is for what its last step uses; or 0 */
    unsigned deviations;
    uint64_t hash;
    uint64_t random;
    uint32_t priorities[RUNNERS + 1];
    unsigned changes[DEPTH], changed, usual_steps;
} Path;

/* The run (coroutine.c). */
typedef struct {
    uint32_t number;
    int runners_count, usual_count, most_runners; /* up to the last one; as a run begins; and in any run so far */
    bool is_alone; /* a thread goes on until it waits, and nobody else */
    bool is_running;
    bool has_places; /* it may go on from where an earlier one stood: another stack chooses then */
    unsigned preemptions, switches, fails_used, timeouts, steps;
    char unmet[TEXT]; /* the first expectation that isn't met */
    bool is_guided; /* it follows a list of steps as far as it can */
    struct Guide *guide;
    struct Pair *pair; /* of steps that are tried in both orders */
    uint64_t seen[RUNNERS + 1]; /* then: what each client came to, and read */
    uint64_t left_out[RUNNERS + 1]; /* requests of each client that aren't made: a bit for each */
    sigjmp_buf out; /* to where a run ends, from wherever it is */
    void *back;
    int current;
    bool is_given_up;
    Buffer buffers[RUNNERS + 1]; /* of each client */
    unsigned late_used;
    Read reads[READS]; /* what was read of callers' own buffers */
    unsigned reads_count, changes_used;
    unsigned met; /* in any run */
    bool has_late_reads; /* in any run: a volatile read of another cell behind a volatile write, with nothing between them that empties a buffer */
    Patience patience[RUNNERS + 1]; /* of each client */
    uint32_t able;
    uint32_t asleep, slept_at[RUNNERS + 1]; /* who doesn't go on now, a bit for each; the choice since which */
    uint32_t chose_at, stayed_at; /* where the client that runs was chosen, and one; the same if that was the first option */
} Run;

/* What the schedules came to (main.c). */
typedef struct {
    uint64_t schedules, given_up, counts[LIMITED + 1];
    unsigned longest;
    double shown, saved; /* when progress was shown last, and the search saved */
    double since; /* when this bound began */
    Counted counted[BOUNDS]; /* of the bounds that are done */
    int counted_count;
    bool is_whole, is_silent;
    bool is_endless; /* code without an end was met: the next is taken as that sooner */
    bool is_unwritten; /* the file in which an interrupted search is to be stored couldn't be written */
    volatile bool is_interrupted;
    const char *full; /* what the explorer's memory is full of: then the search ends */
    const char *unknown; /* why nothing can be told behind some point: then the search ends */
    char resume_path[4200]; /* where an interrupted search is saved; empty if it isn't */
    bool is_resumed;
    Counted resumed; /* where it goes on */
} Total;

/* All that a run's beginning doesn't put back. */
typedef struct {
    KzScenario scenario;
    Search search;
    Path path;
    Run run;
    struct {
        uint8_t steps[STEPS * 2];
        size_t length;
        char text[STEPS * 4];
    } schedule;
    struct {
        char text[OUTPUT];
        size_t length;
    } output;
    struct { /* in this run */
        Found all[16];
        size_t count;
    } found;
    struct {
        Kind all[KINDS];
        int count;
    } kinds;
    Total total;
    struct {
        char text[1 << 20];
        size_t length;
        Event *events; /* of a run that is traced */
        size_t count, touches_from;
    } trace;
    struct { /* of each client: its requests that were made, those that came to something, and how the others were answered; in any run */
        uint64_t made, done;
        uint32_t status[KZ_REQUESTS];
    } asked[RUNNERS + 1];
    struct { /* for what is kept of kinds: never freed */
        char *bytes;
        size_t used;
    } room;
    uint64_t ticked[3]; /* of the clock of endless code: the run and the step at its last tick, and for how many it stands there (fault.c) */
} Explorer;

extern Explorer *ex;

/* All that a run stands on, one thing after the other: it is kept there, or put back. */
typedef struct {
    char *at, *end;
    bool is_kept, is_full;
} Store;

/* What the words ask for, beside what the search itself looks at. */
typedef struct {
    unsigned jobs, commutes;
    bool shrinks, is_debugged;
    const char *replay, *scenario, *learns, *expects, *saves, *resume, *page;
    char **merges;
    int merges_count;
    char search[400];
} Asked;

/* options.c: false if a sentence has said what is wrong. */
bool ex_read_words(int count, char **words, Asked *asked);
int ex_debug(int count, char **words);

/* main.c */
void ex_run_once(void);
void ex_search(void);
extern Runner ex_runners[RUNNERS + 1]; /* by the client's number: from 1 on */
#define ROOM (1UL << 30)
/* In a schedule, beside clients: the call was refused; the operation went on inside the call; others see the next write later; they see what was written; a program has changed its buffer. */
enum { FAIL = 255, INSIDE = 254, LATE = 253, SEEN = 252, CHANGED = 251, FIRST_SIGN = CHANGED };
enum { LATE_UNSAID = 0xffff };

/* scenario.c: 0, or what is wrong was said. */
int ex_read(const char *path);

/* snapshot.c: memory at the set-up's end, put back before each run. */
void ex_open_memory(void);
void *ex_map(size_t size);
void ex_take_image(void);
void ex_put_back(void);
void ex_clear_arenas(void);
bool ex_opens_page(const void *address);
bool ex_is_heap(const void *address);
bool ex_is_program(const void *address);
unsigned ex_arena_of(const void *address); /* of the heap: the number of the client that allocated it, 0 for the set-up */

uint64_t ex_memory_hash(void);

/* states.c: states of a run, told apart by a hash of all that what comes depends on. */
void ex_open_states(void);
void ex_forget_states(void);
uint64_t ex_states_count(void);
bool ex_is_known(int stays);
uint64_t ex_state_key(void);
uint64_t ex_mixed(uint64_t value);
uint64_t ex_bytes_hash(const void *bytes, size_t size, uint64_t seed);

/* hooks.c, clocks.c: what the driver's code reads and writes. */
uint64_t ex_clocks_hash(void);
void ex_open_shadow(void);
void ex_start_clocks(void);
void ex_touch(const void *object, size_t size, KzTouch how);
void ex_access(const void *address, size_t size, bool is_write, bool is_atomic, const void *from);
/* One move of a binary, which may be one of a volatile: it is a point where others meet the place, and one of them writes it. is_update: it writes what it read before, changed. */
void ex_move(const void *address, size_t size, bool is_write, bool is_update, const void *from);
/* A call of the kit over a driver's memory begins, at that line of the driver; it is over; it reads or writes, at the same line. */
void ex_enter_lib(const void *from);
void ex_leave_lib(void);
void ex_lib_access(const void *address, size_t size, bool is_write);
/* A call of the kit that the driver makes copies from or to that memory: it counts where it is the driver's. */
void ex_kit_access(const void *address, size_t size, bool is_write);
void ex_forget_lib_calls(void);
void ex_in_order(const void *object);
extern const void *volatile ex_hooked;
/* Cells that interlocked or volatile accesses meet in the set-up, and in runs before the search: plain accesses to them are points too. */
void ex_learn_cells(bool is);

/* footprint.c */
void ex_open_footprints(void);
Footprint *ex_begin_footprint(void);
Footprint *ex_footprint(void);
void ex_use_all(void);
void ex_uses(const void *object, KzUse how);
void ex_use_words(const void *address, size_t size, bool is_write);
/* The driver's code does so. */
void ex_use_memory(const void *address, size_t size, bool is_write);
void ex_use_gone(const void *memory, size_t size);
/* The block around a word, as who uses words of it has it. */
Use ex_block_around(uintptr_t tag);
void ex_use_meetings(uintptr_t tag, bool is_atomic);
bool ex_do_depend(const Use *a, unsigned count, const Use *b, unsigned others);

/* order.c */
void ex_open_order(void);
void ex_order_back_to(uint32_t step);
void ex_go_on_in_order(void);
bool ex_do_steps_depend(uint32_t a, uint32_t b);
bool ex_is_asleep(int client);
void ex_end_step(void);
void ex_note_able(const int *clients, unsigned count);
void ex_break_step(void);
bool ex_begin_choice(Node *node, const int *clients, bool may_stay);
void ex_note_choice(Node *node, const int *clients);
unsigned ex_next_option(const Node *node);

/* commute.c: 1 if steps that are taken to come to the same in either order don't. */
int ex_try_pairs(unsigned runs);
unsigned ex_choose_for_pair(const int *clients, unsigned count);

/* coroutine.c */
extern const KzScheduler ex_scheduler;
void ex_open_stacks(void);
void ex_keep_stacks(void);
void ex_clear_stacks(void);
bool ex_is_stack(const void *address);
uint64_t ex_stacks_hash(void);
void ex_run(int stood);
/* Nobody can go on: whether somebody waits who shouldn't. */
bool ex_is_stuck(void);
/* Who has what it waits for, for no time; NULL if that isn't known. */
const Runner *ex_holder_of(const Runner *one);
bool ex_is_busy(const Runner *one);
uint64_t ex_stands_hash(void);
/* Before an access of the driver's code: another client may go on first. */
void ex_memory_point(const void *address, size_t size, const void *from);
/* It has changed shared memory: it doesn't look in vain. */
void ex_note_change(void);
uint64_t ex_patience_hash(void);
void ex_note_used(const Use *uses, unsigned count, bool is_all);
/* The client that runs comes to it, where steps are tried in both orders. */
void ex_note_seen(uint64_t what);

/* buffer.c: a write of the driver's code comes next; may_begin: it is volatile, and may be the first that is late. A volatile read comes next. */
void ex_delay_write(void *address, size_t size, bool may_begin, const void *from);
void ex_may_be_seen(const void *address);
/* Others see all that this client wrote. */
void ex_see_writes(void);
/* The client stands from here on; it goes on. */
void ex_take_out(void);
void ex_put_in(void);
void ex_empty_buffers(void);
uint64_t ex_buffers_hash(void);
/* Whether it is so in this run: a sign stands in the schedule then, and the text in its trace. */
bool ex_is_so(Asks asks, uint8_t sign, const char *text);

/* change.c: a driver is about to read there; memory is given back; a run begins. */
void ex_may_change(const void *address, size_t size);
void ex_forget_reads(const void *address, size_t size);
void ex_begin_changes(void);
uint64_t ex_changes_hash(void);

/* path.c: which of so many is taken. */
uint8_t ex_sign_of(Asks asks);
const char *ex_sign_name(uint8_t sign); /* NULL where it is a client */
uint8_t ex_sign_named(const char *name, size_t length); /* 0 where it is none */
unsigned ex_decide(unsigned count, Asks asks, const int *clients, bool may_stay);
unsigned ex_draw(unsigned count);
void ex_give_up(void) __attribute__((noreturn));
bool ex_advance(void);
void ex_draw_priorities(void);
bool ex_is_own(void);
const char *ex_schedule_text(size_t length);

/* found.c */
void ex_end_search(const char *full);
void ex_stop_at(const char *unknown, const char *why);
/* The first line of it, or all of its lines; of a race, between these two places of the driver's code. */
void ex_found(KindOf of, const char *text);
void ex_found_lines(KindOf of, const char *text);
bool ex_found_race(RaceSort sort, const char *text, uintptr_t now, uintptr_t before);
void ex_say(const KzSaid *said);
bool ex_is_line_open(void);
void ex_keep_found(void);
void ex_report_kind(const Kind *kind, unsigned count);
int ex_compare_kinds(const Kind *a, const Kind *b);
void ex_put_kind_line(const Kind *kind);
void ex_report(void);

char *ex_kept(const char *text);
void ex_add_kind(const Kind *more);
uint64_t ex_found_hash(void); /* of what the run has found */

/* once.c: of each kind how many it is shown for; 0 if another is shown in its place. */
unsigned *ex_count_kinds(void);

/* checkpoint.c */
void ex_open_places(void);
void ex_keep_places(bool is);
void ex_keep_place(void);
int ex_go_back(void);
void ex_pass(Store *store, void *memory, size_t size);
void ex_pass_memory(Store *store);
void ex_pass_stacks(Store *store);
void ex_pass_clocks(Store *store);

/* asked.c: requests that are refused in each schedule, of which nothing is tried. */
void ex_note_answer(size_t request, uint32_t status, bool is_done);
void ex_put_refused(void);
bool ex_is_idle(void);
void ex_write_asked(FILE *to);
bool ex_read_asked(const char *line);

/* results.c: a search in a file. */
void ex_name_search(const char *words, const char *scenario);
int ex_save(const char *path);
/* A file that is written: 0, or 3 if not all of it could be, which a sentence says. */
int ex_end_file(FILE *file, const char *path);
int ex_resume(const char *path);
int ex_merge(char **paths, int count);
Counted ex_count_now(void);

/* jobs.c */
int ex_search_jobs(unsigned jobs, const char *resume, void (*search)(void));

/* ends.c: kinds that are stored in a file, and compared with it. 0, 1 where they differ, or 3 if the file can't be read or written. */
char *ex_kind_text(const Kind *kind); /* with the lines of sources */
int ex_learn_ends(const char *path);
int ex_compare_ends(const char *path);

/* source.c: text with places of the program, @1234, as lines of sources, and variables by their names; the same with what the lines say. */
#define EX_VARIABLE "\x1e"
void ex_put_sources(FILE *to, const char *text);
void ex_put_lines(FILE *to, const char *text);
const char *ex_source_text(unsigned long address);

/* trace.c */
void ex_trace_step(const Runner *runner, bool is_preemption);
void ex_trace_text(const char *text);
void ex_trace_found(const char *text);
void ex_trace_access(const void *address, size_t size, bool is_write, bool is_atomic, const void *from);
void ex_trace_object(const void *object, bool is_taken, const char *call);
void ex_put_touches(void);
void ex_trace_end(void);

/* page.c: 0, or 3 if it can't be written. */
int ex_put_page(const char *path);

/* shrink.c: shorter schedules that find the same, and scenarios with fewer requests. */
void ex_shrink(void);
unsigned ex_guided(unsigned count, Asks asks, const int *clients);

/* fault.c */
void ex_watch_faults(void);

/* binary.c */
void ex_watch_binaries(void);

#endif
