/* The words of the explorer's program. */
#include "explore.h"
#include "core/near.h"

#include <stdlib.h>
#include <unistd.h>

static bool usage(const char *name, FILE *to)
{
    fprintf(to,
            "usage: %s [WORD..] SCENARIO, or %s --merge FILE..\n"
            "  what is searched   --bound N|all (2), --whole, --reduce, --states, --coarse, --inline, --fails N, --fail-each, --changes N, --workers N, --late N, --dispatch none|data|all\n"
            "  drawn schedules    --seed N [--runs N] [--pct N]\n"
            "  orders of steps    --commute N\n"
            "  spread             --jobs N, --shard K/N, --save FILE, --merge FILE.., --resume FILE, --memory MB\n"
            "  what is shown      --ends, --learn FILE, --expect-ends FILE, --shrink, --page FILE, --allow KZ0000, --strict\n"
            "  one schedule       --replay SCHEDULE [--trace | --page FILE | --gdb]\n",
            name, name);
    return false;
}

static bool refuse(const char *sentence)
{
    fprintf(stderr, "%s\n", sentence);
    return false;
}

static bool refuse_more(const char *scenario, const char *more)
{
    fprintf(stderr, "%s: the scenario is %s, and there is one\n", more, scenario);
    return false;
}

/* ---- Words: one that stands alone, and one with another behind it, which is read as a number, as a path or in its own way. */
typedef enum { ALONE, NUMBER, LARGE, PATH_TO, OWN } Way;
typedef struct {
    const char *name;
    Way way;
    void *to;
    unsigned least, most;
    bool (*read)(const char *value); /* NULL where `to` says it all */
    const char *takes;               /* of its own way: what stands behind it */
} Word;
enum { WORDS = 40, NEAR = 3 };

static bool is_number(const char *value, uint64_t least, uint64_t most, uint64_t *number)
{
    char *end;
    *number = strtoull(value, &end, 10);
    return *value >= '0' && *value <= '9' && !*end && *number >= least && *number <= most;
}

static bool read_shard(const char *word)
{
    int used = 0;
    return sscanf(word, "%u/%u%n", &ex->search.shard, &ex->search.shards, &used) == 2 && !word[used] && ex->search.shards > 0 && ex->search.shard < ex->search.shards;
}

static bool read_memory(const char *value)
{
    uint64_t megabytes;
    bool is_right = is_number(value, 0, UINT32_MAX, &megabytes);
    ex->search.memory = megabytes << 20;
    return is_right;
}

static bool read_fail_each(const char *value)
{
    (void)value;
    ex->search.fails = 1;
    ex->search.asked_bound = 0;
    return true;
}

static bool read_states(const char *value)
{
    (void)value;
    return ex->search.has_no_bound = ex->search.is_reduced = true;
}

static bool read_bound(const char *value)
{
    uint64_t bound = 0;
    bool is_all = strcmp(value, "all") == 0, is_right = is_all || is_number(value, 0, BOUNDS - 1, &bound);
    ex->search.has_no_bound |= is_all;
    ex->search.asked_bound = (unsigned)bound;
    return is_right;
}

static bool read_strict(const char *value)
{
    (void)value;
    kz_be_strict(true);
    return ex->search.is_strict = true;
}

static size_t all_words(Asked *asked, Word *words)
{
    Search *search = &ex->search;
    const Word all[] = {
        {"--ends", ALONE, &search->wants_ends}, {"--trace", ALONE, &search->is_traced}, {"--quiet", ALONE, &search->is_quiet}, {"--reduce", ALONE, &search->is_reduced},
        {"--coarse", ALONE, &search->is_coarse}, {"--inline", ALONE, &search->has_inside}, {"--shrink", ALONE, &asked->shrinks}, {"--gdb", ALONE, &asked->is_debugged},
        {"--whole", ALONE, &search->is_whole}, {"--fail-each", ALONE, .read = read_fail_each}, {"--states", ALONE, .read = read_states}, {"--strict", ALONE, .read = read_strict},
        {"--fails", NUMBER, &search->fails, 0, 1000}, {"--changes", NUMBER, &search->changes, 0, 1000}, {"--workers", NUMBER, &search->workers, 1, WORKERS}, {"--late", NUMBER, &search->asked_late, 0, LATE_WRITES},
        {"--jobs", NUMBER, &asked->jobs, 1, 256}, {"--commute", NUMBER, &asked->commutes, 1, 10000000}, {"--stop", NUMBER, &search->stops_at, 1, STEPS}, {"--pct", NUMBER, &search->pct, 1, DEPTH},
        {"--seed", LARGE, &search->asked_seed}, {"--runs", LARGE, &search->asked_runs, 1},
        {"--replay", PATH_TO, &asked->replay, .takes = "a schedule"}, {"--learn", PATH_TO, &asked->learns}, {"--expect-ends", PATH_TO, &asked->expects},
        {"--save", PATH_TO, &asked->saves}, {"--resume", PATH_TO, &asked->resume}, {"--page", PATH_TO, &asked->page},
        {"--bound", OWN, .read = read_bound, .takes = "a number from 0 to 63, or all"}, {"--shard", OWN, .read = read_shard, .takes = "a part, as 0/4 is the first of four"}, {"--memory", OWN, .read = read_memory, .takes = "a number of megabytes"},
        {"--dispatch", OWN, .read = kz_dispatch_as, .takes = "none, data or all"}, {"--allow", OWN, .read = kz_allow, .takes = "the number of a message, as KZ0130"}};
    memcpy(words, all, sizeof all);
    return sizeof all / sizeof all[0];
}

static bool read_value(const Word *word, const char *value)
{
    uint64_t number = 0;
    bool is_right = *value;
    if (word->way == OWN)
        return is_right && word->read(value);
    if (word->way == PATH_TO)
        *(const char **)word->to = value;
    else if (word->way == LARGE)
        is_right = is_number(value, word->least, UINT64_MAX - 1, (uint64_t *)word->to);
    else if ((is_right = is_number(value, word->least, word->most, &number)))
        *(unsigned *)word->to = (unsigned)number;
    return is_right;
}

/* What stands behind a word, where something else does. */
static bool refuse_value(const Word *word, const char *value)
{
    fprintf(stderr, "%s%s%s: behind %s stands ", word->name, value ? " " : "", value ? value : "", word->name);
    if (word->way == NUMBER)
        fprintf(stderr, "a number from %u to %u\n", word->least, word->most);
    else
        fprintf(stderr, "%s\n", word->takes ? word->takes : word->way == LARGE && word->least ? "a number from 1 on" : word->way == LARGE ? "a number" : "a file");
    return false;
}

static bool refuse_word(const char *word, const Word *words, size_t count)
{
    const char *best = NULL;
    for (size_t at = 0, far = NEAR; at < count; at++) {
        size_t own = kz_letters_apart(word, words[at].name);
        best = own < far ? words[at].name : best;
        far = own < far ? own : far;
    }
    fprintf(stderr, "there is no word %s%s%s (--help shows all)\n", word, best ? "; the nearest is " : "", best ? best : "");
    return false;
}

/* Whether it is of what is searched, and not of how it is spread or shown. */
static bool is_of_search(const char *word)
{
    static const char *const others[] = {"--jobs", "--shard", "--save", "--resume", "--memory", "--page", "--shrink", "--quiet", "--strict", "--learn", "--expect-ends"};
    for (size_t at = 0; at < sizeof others / sizeof others[0]; at++)
        if (strcmp(others[at], word) == 0)
            return false;
    return true;
}

static void note_word(Asked *asked, const char *word, const char *value)
{
    size_t used = strlen(asked->search);
    if (is_of_search(word))
        snprintf(asked->search + used, sizeof asked->search - used, "%s%s%s%s", used ? " " : "", word, value ? " " : "", value ? value : "");
}

/* Words that don't go together. */
static bool are_right(const Asked *asked)
{
    bool knows_states = ex->search.is_reduced, is_spread = ex->search.shards > 1 || asked->jobs > 1;
    if (knows_states && is_spread)
        return refuse("--reduce and --states don't go with --shard and --jobs: a part would leave out what another has met");
    if (knows_states && asked->resume)
        return refuse("--reduce and --states don't go with --resume: what was met isn't stored");
    if (asked->jobs > 1 && ex->search.shards > 1)
        return refuse("--jobs and --shard both spread the search: take one of them");
    if (asked->jobs > 1 && (asked->replay || asked->is_debugged))
        return refuse("--replay is one schedule: it isn't spread");
    if (asked->is_debugged && !asked->replay)
        return refuse("--gdb goes with --replay");
    if (ex->search.pct && !ex->search.asked_seed)
        return refuse("--pct goes with --seed");
    return true;
}

/* The word there, and what stands behind it: how many were read, or 0 where a sentence has said what is wrong. */
static int read_word(char **words, int count, Asked *asked)
{
    Word all[WORDS];
    size_t known = all_words(asked, all), at = 0;
    while (at < known && strcmp(all[at].name, words[0]) != 0)
        at++;
    if (at == known)
        return refuse_word(words[0], all, known);
    const Word *word = &all[at];
    const char *value = word->way == ALONE || count < 2 ? NULL : words[1];
    if (word->way == ALONE && word->read)
        word->read(NULL);
    else if (word->way == ALONE)
        *(bool *)word->to = true;
    else if (!value || !read_value(word, value))
        return refuse_value(word, value);
    note_word(asked, words[0], value);
    return value ? 2 : 1;
}

bool ex_read_words(int count, char **words, Asked *asked)
{
    if (count == 2 && strcmp(words[1], "--help") == 0) {
        usage(words[0], stdout);
        exit(0);
    }
    for (int at = 1, read; at < count; at += read) {
        if (strcmp(words[at], "--merge") == 0) {
            asked->merges = words + at + 1;
            asked->merges_count = count - at - 1;
            return asked->merges_count || refuse("--merge: behind --merge stand the files of the parts");
        }
        read = 1;
        if (words[at][0] != '-' && asked->scenario)
            return refuse_more(asked->scenario, words[at]);
        if (words[at][0] != '-')
            asked->scenario = words[at];
        else
            read = read_word(words + at, count - at, asked);
        if (!read)
            return false;
    }
    ex->search.wants_ends |= asked->learns || asked->expects || asked->commutes;
    ex->search.is_traced |= asked->replay && asked->page;
    return asked->scenario ? are_right(asked) : usage(words[0], stderr);
}

/* ---- The same program and schedule under gdb, which stops at the schedule's last step. */
static unsigned steps_of(const char *schedule)
{
    unsigned steps = 0;
    for (const char *at = schedule; *at; at += strcspn(at, " ")) {
        at += strspn(at, " ");
        size_t length = strcspn(at, "* ");
        bool is_step = length && !ex_sign_named(at, length);
        steps += !is_step ? 0 : at[length] == '*' ? (unsigned)strtoul(at + length + 1, NULL, 10) : 1;
    }
    return steps;
}

int ex_debug(int count, char **words)
{
    static char *command[64] = {"gdb", "-q", "-ex", "handle SIGSEGV SIGVTALRM nostop noprint pass", "-ex", "run"}, stop[16];
    int used = 6;
    bool is_said = getenv("KAZDRIN_GDB") != NULL; /* more words for gdb, one command each line */
    for (char *rest = NULL, *line = is_said ? strtok_r(getenv("KAZDRIN_GDB"), "\n", &rest) : NULL; line && used < 30; line = strtok_r(NULL, "\n", &rest)) {
        command[used++] = "-ex";
        command[used++] = line;
    }
    command[used++] = "--args";
    for (int at = 0; at < count && used < 60; at++) {
        if (strcmp(words[at], "--gdb") != 0)
            command[used++] = words[at];
        if (at > 0 && strcmp(words[at - 1], "--replay") == 0)
            snprintf(stop, sizeof stop, "%u", steps_of(words[at]));
    }
    command[used++] = "--stop";
    command[used++] = stop;
    execvp("gdb", command);
    fprintf(stderr, "gdb can't be run here\n");
    return 3;
}
