/* Stored ends: what a scenario may come to, each kind as a paragraph of a file, in order. A test fails when one is new, or gone. */
#include "explore.h"

#include <stdlib.h>

enum { STORED = 4096 };

typedef struct {
    char *texts[STORED];
    const Kind *kinds[STORED];
    size_t count;
} Ends;

char *ex_kind_text(const Kind *kind)
{
    char *text = NULL;
    size_t size;
    FILE *to = open_memstream(&text, &size);
    if (!to)
        return "";
    ex_put_sources(to, kind->key);
    fclose(to);
    return text;
}

static int compare_texts(const void *a, const void *b)
{
    return strcmp(*(char *const *)a, *(char *const *)b);
}

static void sort_in(Ends *ends, char *text, const Kind *kind)
{
    size_t at = ends->count++;
    for (; at > 0 && compare_texts(&text, &ends->texts[at - 1]) < 0; at--) {
        ends->texts[at] = ends->texts[at - 1];
        ends->kinds[at] = ends->kinds[at - 1];
    }
    ends->texts[at] = text;
    ends->kinds[at] = kind;
}

static Ends *found_ends(void)
{
    Ends *ends = ex_map(sizeof *ends);
    for (int at = 0; at < ex->kinds.count; at++)
        if (ex->kinds.all[at].of != LIMITED)
            sort_in(ends, ex_kind_text(&ex->kinds.all[at]), &ex->kinds.all[at]);
    return ends;
}

/* The paragraphs of a file; NULL if it can't be read. */
static Ends *stored_ends(const char *path)
{
    static char line[2 * TEXT];
    FILE *file = fopen(path, "r");
    if (!file)
        return NULL;
    Ends *ends = ex_map(sizeof *ends);
    char *text = ex_map(TEXT * 2), *next = text;
    size_t used = 0;
    while (ends->count < STORED && fgets(line, sizeof line, file)) {
        if (strcmp(line, "\n") != 0 && used + strlen(line) + 1 < TEXT * 2) {
            used += (size_t)snprintf(text + used, TEXT * 2 - used, "%s", line);
            continue;
        }
        if (used)
            text[used - 1] = 0;
        next = ex_map(TEXT * 2);
        ends->texts[ends->count] = text;
        ends->count += used > 0;
        text = next;
        used = 0;
    }
    fclose(file);
    return ends;
}

int ex_learn_ends(const char *path)
{
    Ends *ends = found_ends();
    FILE *file = fopen(path, "w");
    for (size_t at = 0; file && at < ends->count; at++)
        if (!at || strcmp(ends->texts[at], ends->texts[at - 1]) != 0)
            fprintf(file, "%s\n\n", ends->texts[at]);
    if (ex_end_file(file, path) != 0)
        return 3;
    printf("%zu ends\n", ends->count);
    return 0;
}

static bool has(const Ends *ends, char *text)
{
    return bsearch(&text, ends->texts, ends->count, sizeof ends->texts[0], compare_texts) != NULL;
}

int ex_compare_ends(const char *path)
{
    Ends *found = found_ends(), *stored = stored_ends(path);
    if (!stored) {
        fprintf(stderr, "%s: can't be read\n", path);
        return 3;
    }
    int status = 0;
    qsort(stored->texts, stored->count, sizeof stored->texts[0], compare_texts);
    for (size_t at = 0; at < found->count; at++)
        if (!has(stored, found->texts[at])) {
            printf("\nnew:");
            ex_report_kind(found->kinds[at], 1);
            status = 1;
        }
    for (size_t at = 0; at < stored->count; at++)
        if (!has(found, stored->texts[at])) {
            printf("\ngone:\n%s\n", stored->texts[at]);
            status = 1;
        }
    return status;
}
