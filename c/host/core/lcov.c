/* What ran, as a file of lcov: of each line in how many runs it did. */
#define _GNU_SOURCE
#include "core/coverage.h"

#include <fcntl.h>
#include <stdio.h>
#include <stdlib.h>
#include <string.h>
#include <sys/file.h>
#include <unistd.h>

/* A line of a file, or a function with its name; from this run, or as the file says it. */
typedef struct {
    const char *path, *function;
    unsigned line;
    unsigned long count;
} Row;

typedef struct {
    Row *all;
    size_t count, room;
} Rows;

static void add(Rows *rows, Row row)
{
    if (rows->count == rows->room) {
        rows->room = rows->room ? 2 * rows->room : 1024;
        Row *larger = realloc(rows->all, rows->room * sizeof *larger);
        if (!larger)
            abort();
        rows->all = larger;
    }
    rows->all[rows->count++] = row;
}

/* By path, lines behind functions. */
static int compare(const void *a, const void *b)
{
    const Row *one = a, *other = b;
    int by = strcmp(one->path, other->path);
    if (!by && !one->function != !other->function)
        by = one->function ? -1 : 1;
    if (!by)
        by = one->line < other->line ? -1 : one->line > other->line;
    return by || !one->function ? by : strcmp(one->function, other->function);
}

/* Places of one line come to one row; of several runs the counts are added. */
static void join(Rows *rows, bool adds)
{
    size_t kept = 0;
    if (rows->count)
        qsort(rows->all, rows->count, sizeof *rows->all, compare);
    for (size_t at = 0; at < rows->count; at++) {
        Row *last = kept ? &rows->all[kept - 1] : NULL;
        if (!last || compare(last, &rows->all[at]) != 0)
            rows->all[kept++] = rows->all[at];
        else if (adds)
            last->count += rows->all[at].count;
        else
            last->count |= rows->all[at].count;
    }
    rows->count = kept;
}

/* A function stands at the first line that begins where it does. */
static void take_run(Rows *rows)
{
    for (size_t at = 0; at < kz_coverage->marks_count; at++) {
        const KzMark *mark = &kz_coverage->marks[at];
        add(rows, (Row){kz_coverage->names + mark->path, NULL, mark->line, mark->is_hit});
    }
    for (size_t at = 0; at < kz_coverage->functions_count; at++) {
        const KzMarkedFunction *one = &kz_coverage->functions[at];
        const KzMark *mark = kz_mark_at(one->at);
        if (mark)
            add(rows, (Row){kz_coverage->names + mark->path, kz_coverage->names + one->name, mark->line, mark->is_hit});
    }
    join(rows, false);
}

/* What the file says already. Its texts stay for as long as the program runs. */
static void take_file(Rows *rows, FILE *from)
{
    char *text = NULL, name[1024];
    size_t room = 0;
    const char *path = "";
    unsigned line;
    unsigned long count;
    Rows functions = {0};
    while (getline(&text, &room, from) > 0) {
        text[strcspn(text, "\r\n")] = 0;
        if (strncmp(text, "SF:", 3) == 0)
            path = strdup(text + 3);
        else if (sscanf(text, "DA:%u,%lu", &line, &count) == 2)
            add(rows, (Row){path, NULL, line, count});
        else if (sscanf(text, "FN:%u,%1023[^\n]", &line, name) == 2)
            add(&functions, (Row){path, strdup(name), line, 0});
        else if (sscanf(text, "FNDA:%lu,%1023[^\n]", &count, name) == 2)
            for (size_t at = 0; at < functions.count; at++)
                if (strcmp(functions.all[at].path, path) == 0 && strcmp(functions.all[at].function, name) == 0)
                    functions.all[at].count = count;
    }
    for (size_t at = 0; at < functions.count; at++)
        add(rows, functions.all[at]);
    free(functions.all);
    free(text);
}

/* ---- One source. */
static void write_functions(FILE *to, const Row *row, size_t count)
{
    for (size_t at = 0; at < count && row[at].function; at++)
        fprintf(to, "FN:%u,%s\nFNDA:%lu,%s\n", row[at].line, row[at].function, row[at].count, row[at].function);
}

static void say(const Row *row, size_t count, size_t lines, size_t hits)
{
    const char *name = strrchr(row->path, '/'), *between = "; never entered: ";
    fprintf(stderr, "%s: %zu of %zu lines ran", name ? name + 1 : row->path, hits, lines);
    for (size_t at = 0; at < count; at++)
        if (row[at].function && !row[at].count) {
            fprintf(stderr, "%s%s:%u", between, row[at].function, row[at].line);
            between = ", ";
        }
    fputs("\n", stderr);
}

static void write_source(FILE *to, const Row *row, size_t count)
{
    size_t functions = 0, entered = 0, lines = 0, hits = 0;
    fprintf(to, "TN:\nSF:%s\n", row->path);
    write_functions(to, row, count);
    for (size_t at = 0; at < count; at++) {
        functions += row[at].function != NULL;
        entered += row[at].function && row[at].count;
        lines += !row[at].function;
        hits += !row[at].function && row[at].count;
    }
    fprintf(to, "FNF:%zu\nFNH:%zu\n", functions, entered);
    for (size_t at = 0; at < count; at++)
        if (!row[at].function)
            fprintf(to, "DA:%u,%lu\n", row[at].line, row[at].count);
    fprintf(to, "LF:%zu\nLH:%zu\nend_of_record\n", lines, hits);
    say(row, count, lines, hits);
}

bool kz_write_coverage(const char *path)
{
    Rows rows = {0};
    int descriptor = open(path, O_RDWR | O_CREAT | O_CLOEXEC, 0666);
    FILE *file = descriptor >= 0 ? fdopen(descriptor, "r+") : NULL;
    if (!file || flock(descriptor, LOCK_EX) != 0) {
        fprintf(stderr, "%s can't be written\n", path);
        return false;
    }
    take_run(&rows);
    take_file(&rows, file);
    join(&rows, true);
    rewind(file);
    bool is_cut = ftruncate(descriptor, 0) == 0;
    for (size_t at = 0, end; at < rows.count; at = end) {
        for (end = at; end < rows.count && strcmp(rows.all[end].path, rows.all[at].path) == 0;)
            end++;
        write_source(file, &rows.all[at], end - at);
    }
    free(rows.all);
    return fclose(file) == 0 && is_cut;
}
