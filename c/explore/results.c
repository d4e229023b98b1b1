/* What a search has come to, in a file: the parts of one that was spread are added up, and one that was interrupted goes on. Each line has one thing; texts have \n for a new line. */
#include "explore.h"

#include <stdlib.h>
#include <sys/mman.h>
#include <sys/stat.h>

enum { LINE = 1 << 17 };

/* ---- What is searched, so that nothing else is added to it. */
static uint64_t file_hash(const char *path)
{
    enum { PIECE = 1 << 16 };
    uint8_t *bytes = ex_map(PIECE); /* the kernel writes there: it is no memory that is put back */
    uint64_t hash = 0;
    size_t got;
    FILE *file = fopen(path, "r");
    while (file && (got = fread(bytes, 1, PIECE, file)) > 0)
        hash = ex_mixed(hash + 1) ^ ex_bytes_hash(bytes, got, 1);
    if (file)
        fclose(file);
    munmap(bytes, PIECE);
    return hash;
}

void ex_name_search(const char *words, const char *scenario)
{
    snprintf(ex->search.name, sizeof ex->search.name, "%.400s scenario %016llx program %016llx", words, (unsigned long long)file_hash(scenario), (unsigned long long)file_hash("/proc/self/exe"));
}

/* ---- Writing. */
static void put_text(FILE *to, const char *name, const char *text)
{
    fprintf(to, "%s ", name);
    for (; *text; text++)
        if (*text == '\n')
            fputs("\\n", to);
        else if (*text == '\\')
            fputs("\\\\", to);
        else
            putc(*text, to);
    putc('\n', to);
}

static void put_numbers(FILE *to, const Counted *one)
{
    fprintf(to, "counted %u %llu %llu %llu %u %.3f", one->bound, (unsigned long long)one->schedules, (unsigned long long)one->given_up, (unsigned long long)one->states, one->longest, one->seconds);
    for (int of = 0; of <= LIMITED; of++)
        fprintf(to, " %llu", (unsigned long long)one->counts[of]);
    putc('\n', to);
}

static void put_kind(FILE *to, const Kind *kind)
{
    fprintf(to, "kind %d %llu %u %u %u %llu %llu\n", kind->of, (unsigned long long)kind->count, kind->preemptions, kind->switches, kind->steps, (unsigned long long)kind->seed, (unsigned long long)kind->earlier);
    fprintf(to, "race %d %llx %llx\n", kind->sort, (unsigned long long)kind->sides[0], (unsigned long long)kind->sides[1]);
    put_text(to, "key", kind->key);
    put_text(to, "text", kind->text);
    put_text(to, "schedule", kind->schedule);
}

static void put_path(FILE *to)
{
    fprintf(to, "path");
    for (size_t at = 0; at < ex->path.length; at++) {
        const Node *one = &ex->path.nodes[at];
        fprintf(to, " %u.%u.%d.%u.%d.%d.%d.%x", one->count, one->taken, one->is_switch, one->first, one->may_stay, one->is_met, one->is_cut, one->asleep);
    }
    putc('\n', to);
}

static void put_search(FILE *to)
{
    fprintf(to, "kazdrin search 1\n");
    put_text(to, "search", ex->search.name);
    fprintf(to, "shard %u %u\nwhole %d\nreduced %d\n", ex->search.shard, ex->search.shards ? ex->search.shards : 1, ex->total.is_whole, ex->search.is_reduced);
    if (ex->total.unknown)
        put_text(to, "unknown", ex->total.unknown);
    if (ex->total.full)
        put_text(to, "full", ex->total.full);
    for (int at = 0; at < ex->total.counted_count; at++)
        put_numbers(to, &ex->total.counted[at]);
    ex_write_asked(to);
    for (int at = 0; at < ex->kinds.count; at++)
        put_kind(to, &ex->kinds.all[at]);
    if (ex->total.is_whole)
        return;
    Counted now = ex_count_now();
    fprintf(to, "at ");
    put_numbers(to, &now);
    put_path(to);
}

int ex_end_file(FILE *file, const char *path)
{
    bool is_written = file && !ferror(file);
    if (file && fclose(file) == 0 && is_written)
        return 0;
    fprintf(stderr, "%s: can't be written\n", path);
    return 3;
}

/* 0, or 3 if it can't be written. A file that is there is whole at any time; a device is no file that another may take the place of. */
int ex_save(const char *path)
{
    char beside[4200];
    struct stat there;
    bool is_file = stat(path, &there) != 0 || S_ISREG(there.st_mode);
    snprintf(beside, sizeof beside, is_file ? "%s.new" : "%s", path);
    FILE *to = fopen(beside, "w");
    if (to)
        put_search(to);
    if (ex_end_file(to, path) != 0) {
        if (is_file)
            remove(beside);
        return 3;
    }
    if (!is_file || rename(beside, path) == 0)
        return 0;
    fprintf(stderr, "%s: can't be written\n", path);
    return 3;
}

/* ---- Reading. */
static char *plain(char *text)
{
    char *to = text;
    for (char *from = text; *from && *from != '\n'; from++)
        *to++ = *from != '\\' ? *from : *++from == 'n' ? '\n' : *from;
    *to = 0;
    return text;
}

static bool read_numbers(const char *text, Counted *one)
{
    unsigned long long numbers[3], counts[LIMITED + 1];
    int used = 0;
    if (sscanf(text, "counted %u %llu %llu %llu %u %lf%n", &one->bound, &numbers[0], &numbers[1], &numbers[2], &one->longest, &one->seconds, &used) != 6)
        return false;
    one->schedules = numbers[0], one->given_up = numbers[1], one->states = numbers[2];
    for (int of = 0; of <= LIMITED; of++) {
        int more = 0;
        if (sscanf(text + used, " %llu%n", &counts[of], &more) != 1)
            return false;
        one->counts[of] = counts[of];
        used += more;
    }
    return true;
}

static void add_numbers(const Counted *more)
{
    int at = 0;
    while (at < ex->total.counted_count && ex->total.counted[at].bound != more->bound)
        at++;
    if (at == BOUNDS)
        return;
    Counted *one = &ex->total.counted[at];
    if (at == ex->total.counted_count) {
        ex->total.counted_count++;
        *one = *more;
        return;
    }
    one->schedules += more->schedules;
    one->given_up += more->given_up;
    one->states += more->states;
    one->longest = more->longest > one->longest ? more->longest : one->longest;
    one->seconds = more->seconds > one->seconds ? more->seconds : one->seconds;
    for (int of = 0; of <= LIMITED; of++)
        one->counts[of] += more->counts[of];
}

static bool read_path(char *text)
{
    char *rest = NULL;
    ex->path.length = 0;
    for (char *word = strtok_r(text, " \n", &rest); word; word = strtok_r(NULL, " \n", &rest)) {
        unsigned count, taken, first, asleep;
        int is_switch, may_stay, is_met, is_cut;
        if (ex->path.length == PATH || sscanf(word, "%u.%u.%d.%u.%d.%d.%d.%x", &count, &taken, &is_switch, &first, &may_stay, &is_met, &is_cut, &asleep) != 8)
            return false;
        ex->path.nodes[ex->path.length++] =
            (Node){.count = (uint8_t)count, .taken = (uint8_t)taken, .is_switch = is_switch, .first = (uint8_t)first, .may_stay = may_stay, .is_met = is_met, .is_cut = is_cut, .asleep = asleep};
    }
    return true;
}

typedef struct {
    Kind kind;
    Counted at;
    bool is_right, is_whole, is_reduced, has_place;
    unsigned shard, shards;
} Reading;

/* Whether a file is of this search, or, where parts are merged, of the one that the first is of; and of this program: another's places are other lines. */
static bool is_this(const char *name)
{
    const char *program = strstr(name, " program ");
    char own[64];
    snprintf(own, sizeof own, " program %016llx", (unsigned long long)file_hash("/proc/self/exe"));
    if (!ex->search.name[0])
        snprintf(ex->search.name, sizeof ex->search.name, "%s", name);
    bool is_own = program && strcmp(program, own) == 0, is_it = is_own && strcmp(ex->search.name, name) == 0;
    if (!is_it)
        fprintf(stderr, "this is another search%s: %s\n", is_own ? "" : ", by another program, or by another build of it", name);
    return is_it;
}

static void read_line(char *line, Reading *from)
{
    Counted one = {0};
    unsigned long long count, seed, earlier;
    int of, whole, reduced;
    if (strncmp(line, "counted ", 8) == 0) {
        from->is_right = read_numbers(line, &one);
        add_numbers(&one);
    } else if (sscanf(line, "kind %d %llu %u %u %u %llu %llu", &of, &count, &from->kind.preemptions, &from->kind.switches, &from->kind.steps, &seed, &earlier) == 7) {
        from->kind.of = (KindOf)of;
        from->kind.count = count;
        from->kind.earlier = earlier;
        from->kind.seed = seed;
    } else if (sscanf(line, "race %d %llx %llx", &of, &count, &seed) == 3) {
        from->kind.sort = (RaceSort)of;
        from->kind.sides[0] = count;
        from->kind.sides[1] = seed;
    } else if (strncmp(line, "key ", 4) == 0) {
        from->kind.key = ex_kept(plain(line + 4));
    } else if (strncmp(line, "text ", 5) == 0) {
        from->kind.text = ex_kept(plain(line + 5));
    } else if (strncmp(line, "schedule ", 9) == 0) {
        from->kind.schedule = ex_kept(plain(line + 9));
        ex_add_kind(&from->kind);
    } else if (sscanf(line, "shard %u %u", &from->shard, &from->shards) == 2 || strcmp(line, "kazdrin search 1\n") == 0) {
        return;
    } else if (sscanf(line, "whole %d", &whole) == 1) {
        from->is_whole = whole;
    } else if (sscanf(line, "reduced %d", &reduced) == 1) {
        from->is_reduced = reduced;
    } else if (strncmp(line, "at ", 3) == 0) {
        from->is_right = from->has_place = read_numbers(line + 3, &from->at);
    } else if (strncmp(line, "path", 4) == 0) {
        from->is_right = read_path(line + 4);
    } else if (strncmp(line, "search ", 7) == 0) {
        from->is_right = is_this(plain(line + 7));
    } else if (strncmp(line, "unknown ", 8) == 0) {
        ex->total.unknown = ex_kept(plain(line + 8));
    } else if (strncmp(line, "full ", 5) == 0) {
        ex->total.full = ex_kept(plain(line + 5));
    } else if (strncmp(line, "asked ", 6) == 0) {
        from->is_right = ex_read_asked(line);
    } else {
        from->is_right = false;
    }
}

static bool read_file(const char *path, Reading *reading)
{
    char *line = ex_map(LINE);
    FILE *file = fopen(path, "r");
    if (!file) {
        fprintf(stderr, "%s: can't be read\n", path);
        return false;
    }
    reading->is_right = fgets(line, LINE, file) && strcmp(line, "kazdrin search 1\n") == 0;
    while (reading->is_right && fgets(line, LINE, file))
        read_line(line, reading);
    fclose(file);
    if (!reading->is_right)
        fprintf(stderr, "%s: isn't of this search, or not understood\n", path);
    return reading->is_right;
}

/* Where the file is there, the search stands where it was saved. 0, or 3. */
int ex_resume(const char *path)
{
    FILE *file = fopen(path, "r");
    Reading reading = {.is_right = true};
    if (!file)
        return 0;
    fclose(file);
    if (!read_file(path, &reading))
        return 3;
    if (reading.shard != ex->search.shard || reading.shards != (ex->search.shards ? ex->search.shards : 1)) {
        fprintf(stderr, "%s: is part %u/%u of the search\n", path, reading.shard, reading.shards);
        return 3;
    }
    ex->total.is_resumed = reading.has_place;
    ex->total.is_whole = reading.is_whole;
    ex->total.resumed = reading.at;
    return 0;
}

/* The parts of a search are added up. 0; 3 if one can't be read or isn't of the same search; 4 where a part is missing or isn't whole. */
int ex_merge(char **paths, int count)
{
    bool *is_there = ex_map(65536);
    unsigned shards = 0, missing = 0;
    bool is_reduced = false;
    int status = 0;
    for (int at = 0; at < count; at++) {
        Reading reading = {.is_right = true};
        if (!read_file(paths[at], &reading))
            return 3;
        bool is_part = reading.shard < 65536 && (!shards || shards == reading.shards) && !is_there[reading.shard];
        if (!is_part) {
            fprintf(stderr, "%s: part %u/%u is there twice, or isn't one of %u\n", paths[at], reading.shard, reading.shards, shards);
            return 3;
        }
        shards = reading.shards;
        is_reduced |= reading.is_reduced;
        is_there[reading.shard] = true;
        if (!reading.is_whole) {
            fprintf(stderr, "%s: part %u/%u isn't whole\n", paths[at], reading.shard, reading.shards);
            status = 4;
        }
    }
    ex->search.is_reduced = is_reduced;
    for (unsigned at = 0; at < shards; at++)
        if (!is_there[at] && !missing++)
            fprintf(stderr, "part %u/%u isn't there\n", at, shards);
    return missing ? 4 : status;
}
