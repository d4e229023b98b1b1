/* The program of c/build.sh: it runs the requests of files, each as a run of its own, or of its standard input, through the drivers that are linked with it; or a load with
 * threads. */
#include "../core/coverage.h"
#include "../core/near.h"
#include "report.h"
#include "kzflt.h"

#include <stdlib.h>
#include <string.h>

extern const KzDriver kz_drivers[];
extern const size_t kz_drivers_count;

typedef struct {
    unsigned threads;
    double seconds;
    unsigned long long seed;
    const char *load, *folder, *junit;
    bool is_filled;
    char **files;
    int files_count;
} Asked;

static int usage(const char *name, FILE *to)
{
    fprintf(to,
            "usage: %s [WORD..] [REQUESTS..], or %s --load SCENARIO, or %s --explain KZ0000\n"
            "  what is played     REQUESTS.. or else the standard input, --folder FOLDER, --dispatch none|data|all\n"
            "                     --fill: under two fills of memory that nobody wrote, and what differs is reported\n"
            "  what is shown      --explain KZ0000, --quiet, --json, --junit FILE, --allow KZ0000, --strict,\n"
            "                     --format gcc|github|sarif: what was found alone, as a compiler, a job of GitHub's or SARIF has it,\n"
            "                     --refusals: each call of a driver that is refused, once for its line\n"
            "  threads            --load SCENARIO [--threads N] [--seconds S] [--seed N]\n"
            "  a callback's end   --patience S: so many seconds of the processor's time it may take (3)\n",
            name, name, name);
    return to == stdout ? 0 : 2;
}

static bool read_number(const char *value, unsigned *number)
{
    char *end;
    *number = (unsigned)strtoul(value, &end, 10);
    return *value && !*end;
}

static bool read_strict(const char *value, Asked *asked)
{
    (void)value, (void)asked;
    kz_be_strict(true);
    return true;
}

static bool read_quiet(const char *value, Asked *asked)
{
    (void)value, (void)asked;
    kz_is_quiet = 1;
    return true;
}

static bool read_fill(const char *value, Asked *asked)
{
    (void)value;
    asked->is_filled = true;
    return true;
}

static bool read_refusals(const char *value, Asked *asked)
{
    (void)value, (void)asked;
    kz_show_refusals();
    return true;
}

static bool read_json(const char *value, Asked *asked)
{
    (void)value, (void)asked;
    kz_use_json(true);
    return true;
}

static bool read_threads(const char *value, Asked *asked)
{
    return read_number(value, &asked->threads);
}

static bool read_seconds(const char *value, Asked *asked)
{
    char *end;
    asked->seconds = strtod(value, &end);
    return *value && !*end;
}

static bool read_seed(const char *value, Asked *asked)
{
    char *end;
    asked->seed = strtoull(value, &end, 10);
    return *value && !*end;
}

static bool read_patience(const char *value, Asked *asked)
{
    unsigned seconds;
    (void)asked;
    if (!read_number(value, &seconds))
        return false;
    kz_be_patient(seconds);
    return true;
}

static bool read_load(const char *value, Asked *asked)
{
    asked->load = value;
    return true;
}

static bool read_junit(const char *value, Asked *asked)
{
    asked->junit = value;
    return true;
}

static bool read_folder(const char *value, Asked *asked)
{
    asked->folder = value;
    return true;
}

static bool read_dispatch(const char *value, Asked *asked)
{
    (void)asked;
    return kz_dispatch_as(value);
}

static bool read_format(const char *value, Asked *asked)
{
    (void)asked;
    return kz_use_format(value);
}

static bool read_allow(const char *value, Asked *asked)
{
    (void)asked;
    return kz_allow(value);
}

/* The words: whether a value follows, and what reads it; false if it is none of its values. */
static const struct {
    const char *name;
    enum { ALONE, VALUE } takes;
    bool (*ask)(const char *value, Asked *asked);
} known[] = {
    {"--strict", ALONE, read_strict},       {"--quiet", ALONE, read_quiet},   {"--fill", ALONE, read_fill},         {"--refusals", ALONE, read_refusals},
    {"--json", ALONE, read_json},           {"--load", VALUE, read_load},     {"--threads", VALUE, read_threads},   {"--seconds", VALUE, read_seconds},
    {"--seed", VALUE, read_seed},           {"--junit", VALUE, read_junit},   {"--folder", VALUE, read_folder},     {"--dispatch", VALUE, read_dispatch},
    {"--patience", VALUE, read_patience},   {"--allow", VALUE, read_allow},   {"--format", VALUE, read_format},
};

/* Why a word isn't understood, in a sentence: false. */
static bool refuse(const char *word, const char *why, const char *more)
{
    fprintf(stderr, "%s%s%s (--help shows all)\n", word, why, more);
    return false;
}

static bool refuse_unknown(const char *word)
{
    KzNear near = kz_near(word);
    for (size_t at = 0; at < sizeof known / sizeof known[0]; at++)
        kz_try_near(&near, known[at].name);
    fprintf(stderr, "there is no word %s%s%s (--help shows all)\n", word, near.best ? "; the nearest is " : "", near.best ? near.best : "");
    return false;
}

/* The word at that place, with its value: how many words it took, 0 if it isn't understood. */
static int read_word(int left, char **words, Asked *asked)
{
    for (size_t at = 0; at < sizeof known / sizeof known[0]; at++) {
        if (strcmp(known[at].name, words[0]) != 0)
            continue;
        if (known[at].takes == ALONE)
            return known[at].ask(NULL, asked) ? 1 : 0;
        if (left == 1)
            return refuse(words[0], ": a value is missing after it", "");
        return known[at].ask(words[1], asked) ? 2 : refuse(words[0], ": this is none of its values: ", words[1]);
    }
    return refuse_unknown(words[0]);
}

/* Whether the words go together. A fill is of requests whose replies are read, and that change no folder. A file of JUnit is one run's. */
static bool go_together(const Asked *asked)
{
    if (asked->is_filled && (!asked->files_count || asked->load || asked->folder || asked->junit || kz_is_quiet))
        return refuse("--fill", " wants files of requests, and goes with none of --load, --folder, --junit and --quiet", "");
    if (asked->load && asked->files_count)
        return refuse("--load", " plays its scenario alone, without files of requests", "");
    if (asked->junit && asked->files_count > 1)
        return refuse("--junit", " writes the report of one file of requests", "");
    return true;
}

static bool read_words(int count, char **words, Asked *asked)
{
    for (int at = 1, taken; at < count; at += taken) {
        taken = 1;
        if (strncmp(words[at], "--", 2) != 0)
            asked->files[asked->files_count++] = words[at];
        else if (!(taken = read_word(count - at, words + at, asked)))
            return false;
    }
    return go_together(asked);
}

/* The first status that isn't 0. */
static int run_files(const Asked *asked)
{
    int status = 0;
    for (int at = 0; at < asked->files_count; at++) {
        const char *path = asked->files[at];
        int own = asked->is_filled ? kz_run_filled(kz_drivers, kz_drivers_count, path) : kz_run_path(kz_drivers, kz_drivers_count, path);
        status = status ? status : own;
    }
    return status;
}

static int play(const void *words)
{
    const Asked *asked = words;
    if (asked->load)
        return kz_run_load(kz_drivers, kz_drivers_count, asked->load, asked->threads, asked->seconds, asked->seed);
    if (asked->files_count)
        return run_files(asked);
    return kz_run_file(kz_drivers, kz_drivers_count, stdin);
}

static int explain(const char *id)
{
    if (kz_explain(id))
        return 0;
    fprintf(stderr, "%s: no number of a report, as KZ0101 is one\n", id);
    return 2;
}

int main(int count, char **words)
{
    const char *name = words[0];
    kz_count_lines();
    if (count == 3 && strcmp(words[1], "--explain") == 0)
        return explain(words[2]);
    if (count == 2 && strcmp(words[1], "--help") == 0)
        return usage(name, stdout);
    Asked asked = {.threads = 4, .seconds = 10, .seed = 1, .files = words}; /* those that are read make room for those that are files */
    if (!read_words(count, words, &asked))
        return 2;
    kz_use_junit(asked.junit);
    int error = asked.folder ? kz_use_folder(asked.folder) : 0;
    if (error) {
        fprintf(stderr, "%s: %s\n", asked.folder, strerror(error));
        return 3;
    }
    return kz_run_reported(play, &asked);
}
