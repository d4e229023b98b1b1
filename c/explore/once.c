/* Which kinds are one mistake: races between the same two lines, whatever bytes they touch, and whichever side came first; and what is the same text, of two places in one line. One of them is shown. */
#include "explore.h"
#include "core/source.h"

enum { LINE = 100 };

typedef struct {
    const Kind *kind;
    char lines[2][LINE]; /* of a race */
    char *text;          /* with the lines of sources */
} Shown;

static void put_line(char *line, uint64_t address)
{
    if (!address || !kz_find_source((unsigned long)address, line, LINE))
        snprintf(line, LINE, "%llx", (unsigned long long)address);
}

/* Of two accesses neither is the first. */
static void sort_lines(Shown *one)
{
    char first[LINE];
    if (one->kind->sort != BETWEEN_ACCESSES || strcmp(one->lines[0], one->lines[1]) <= 0)
        return;
    memcpy(first, one->lines[0], LINE);
    memcpy(one->lines[0], one->lines[1], LINE);
    memcpy(one->lines[1], first, LINE);
}

static Shown shown_of(const Kind *kind)
{
    Shown made = {.kind = kind, .text = ex_kind_text(kind)};
    put_line(made.lines[0], kind->sides[0]);
    put_line(made.lines[1], kind->sides[1]);
    sort_lines(&made);
    return made;
}

static bool is_one(const Shown *a, const Shown *b)
{
    if (a->kind->of != b->kind->of || a->kind->sort != b->kind->sort)
        return false;
    if (!a->kind->sort)
        return strcmp(a->text, b->text) == 0;
    return strcmp(a->lines[0], b->lines[0]) == 0 && strcmp(a->lines[1], b->lines[1]) == 0;
}

/* Whether the one there is shown in place of the other: by its text, so that each search of a scenario shows the same. */
static bool is_before(const Shown *all, int one, int other)
{
    int order = strcmp(all[one].text, all[other].text);
    if (order == 0)
        order = ex_compare_kinds(all[one].kind, all[other].kind);
    return order ? order < 0 : one < other;
}

/* How many are shown by this one, with itself; 0 if another is shown in its place. */
static unsigned count_of(const Shown *all, int at)
{
    unsigned count = 1;
    for (int other = 0; other < ex->kinds.count; other++) {
        if (other == at || !is_one(&all[at], &all[other]))
            continue;
        if (is_before(all, other, at))
            return 0;
        count++;
    }
    return count;
}

unsigned *ex_count_kinds(void)
{
    Shown *all = ex_map(KINDS * sizeof *all);
    unsigned *counts = ex_map(KINDS * sizeof *counts);
    for (int at = 0; at < ex->kinds.count; at++)
        all[at] = shown_of(&ex->kinds.all[at]);
    for (int at = 0; at < ex->kinds.count; at++)
        counts[at] = count_of(all, at);
    return counts;
}
