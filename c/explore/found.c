/* What was found, by kinds: two runs that differ only by the numbers of operations found the same. */
#include "explore.h"
#include "core/messages.h"
#include "core/said.h"

/* ---- Of the run that goes on. */
static Found *add(KindOf of, const char *text)
{
    for (size_t at = 0; at < ex->found.count; at++)
        if (ex->found.all[at].of == of && strcmp(ex->found.all[at].text, text) == 0)
            return NULL;
    if (ex->found.count == sizeof ex->found.all / sizeof ex->found.all[0])
        return NULL;
    Found *one = &ex->found.all[ex->found.count++];
    *one = (Found){.of = of, .preemptions = ex->run.preemptions, .switches = ex->run.switches, .steps = ex->run.steps, .schedule_length = ex->schedule.length};
    snprintf(one->text, sizeof one->text, "%s", text);
    return one;
}

void ex_found(KindOf of, const char *text)
{
    Found *one = add(of, text);
    if (one)
        one->text[strcspn(one->text, "\n")] = 0;
}

void ex_found_lines(KindOf of, const char *text)
{
    add(of, text);
}

bool ex_found_race(RaceSort sort, const char *text, uintptr_t now, uintptr_t before)
{
    char line[TEXT + 8];
    Found *one = add(RACE, text);
    if (!one)
        return false;
    one->sort = sort;
    one->sides[0] = now;
    one->sides[1] = before;
    snprintf(line, sizeof line, "  %s\n", text);
    if (ex->search.is_traced)
        ex_trace_found(line);
    return true;
}

/* Who says something next says it in the same line. */
bool ex_is_line_open(void)
{
    return ex->output.length && ex->output.text[ex->output.length - 1] != '\n';
}

/* What is said, each line with its client's name. */
static void append(const char *text)
{
    size_t length = strlen(text);
    if (ex->output.length + length + 40 > sizeof ex->output.text)
        return;
    if (!ex_is_line_open())
        ex->output.length += (size_t)snprintf(ex->output.text + ex->output.length, 34, "%s: ", kz_me->name);
    memcpy(ex->output.text + ex->output.length, text, length + 1);
    ex->output.length += length;
}

/* Requests are the same in each order, and the counts come of what was said; a create's handle is another in each order of creates. */
static void note_end(const KzSaid *said)
{
    if (said->kind == KZ_SAID_HANDLE && kz_me != &kz_first)
        append(" info # bytes ");
    else if (said->kind != KZ_SAID_REQUEST && said->kind != KZ_SAID_COUNTS && said->kind != KZ_SAID_AGAIN)
        append(said->text);
}

void ex_say(const KzSaid *said)
{
    if (!ex->run.is_running) {
        if (!ex->search.is_quiet)
            kz_print(said);
        return;
    }
    if (said->kind == KZ_SAID_UNMET && !ex->run.unmet[0])
        snprintf(ex->run.unmet, sizeof ex->run.unmet, "%s", said->text);
    if (ex->search.wants_ends)
        note_end(said);
    if (ex->search.is_traced)
        ex_trace_text(said->text);
    if (said->kind == KZ_SAID_TOLD)
        ex_found(TOLD, said->text);
    else if (said->kind == KZ_SAID_LIMIT && said->message == KZM_UNKNOWN_WAIT && kz_me != &kz_first) {
        ex_stop_at(said->text, "a wait isn't modelled");
    } else if (said->kind == KZ_SAID_LIMIT)
        ex_found(LIMITED, said->text);
}

/* ---- Kinds. */
/* The search can't be whole any more: it ends, and says so. */
void ex_end_search(const char *full)
{
    ex->total.full = full;
}

/* What comes after this isn't so on Windows. So neither this run nor another tells anything of it. */
void ex_stop_at(const char *unknown, const char *why)
{
    ex->found.count = 0;
    ex_found(LIMITED, unknown);
    ex->total.unknown = why;
    siglongjmp(ex->run.out, 1);
}

char *ex_kept(const char *text)
{
    size_t length = strlen(text) + 1;
    if (ex->room.used + length > ROOM) {
        ex_end_search("schedules");
        return "";
    }
    char *made = ex->room.bytes + ex->room.used;
    ex->room.used += length;
    return memcpy(made, text, length);
}

/* The text without what stands between marks: numbers of operations, and of a race who ran into it. */
static void key_of(const char *text, char *key, size_t size)
{
    size_t used = 0;
    bool is_marked = false;
    for (; *text && used + 1 < size; text++) {
        if (*text == KZ_MARK[0])
            is_marked = !is_marked;
        else if (!is_marked)
            key[used++] = *text;
    }
    key[used] = 0;
}

uint64_t ex_found_hash(void)
{
    char key[TEXT];
    uint64_t hash = 0;
    for (size_t at = 0; at < ex->found.count; at++) {
        key_of(ex->found.all[at].text, key, sizeof key);
        hash += ex_bytes_hash(key, strlen(key), ex->found.all[at].of);
    }
    return hash;
}

/* Below 0 if the first was found by less. */
int ex_compare_kinds(const Kind *a, const Kind *b)
{
    unsigned left[] = {a->preemptions, a->switches, a->steps}, right[] = {b->preemptions, b->switches, b->steps};
    size_t at = 0;
    while (at < 2 && left[at] == right[at])
        at++;
    return (left[at] > right[at]) - (left[at] < right[at]);
}

static bool is_better(const Found *one, const Kind *kind)
{
    return ex_compare_kinds(&(Kind){.preemptions = one->preemptions, .switches = one->switches, .steps = one->steps}, kind) < 0;
}

static Kind *kind_of(const Found *one, const char *key)
{
    for (int at = 0; at < ex->kinds.count; at++)
        if (ex->kinds.all[at].of == one->of && strcmp(ex->kinds.all[at].key, key) == 0)
            return &ex->kinds.all[at];
    if (ex->kinds.count == KINDS) {
        ex_end_search("kinds of ends");
        return NULL;
    }
    Kind *made = &ex->kinds.all[ex->kinds.count++];
    *made = (Kind){.of = one->of, .key = ex_kept(key), .preemptions = UINT32_MAX};
    return made;
}

static void keep(const Found *one)
{
    char key[TEXT];
    key_of(one->text, key, sizeof key);
    Kind *kind = kind_of(one, key);
    if (!kind)
        return;
    kind->count++;
    if (kind->text && !is_better(one, kind))
        return;
    kind->text = ex_kept(one->text);
    kind->sort = one->sort;
    memcpy(kind->sides, one->sides, sizeof kind->sides);
    kind->schedule = ex_kept(ex_schedule_text(one->schedule_length));
    kind->preemptions = one->preemptions;
    kind->switches = one->switches;
    kind->steps = one->steps;
    kind->seed = ex->search.seed;
}

/* One that another part of the search found. */
void ex_add_kind(const Kind *more)
{
    Kind *kind = kind_of(&(Found){.of = more->of}, more->key);
    if (!kind)
        return;
    kind->count += more->count;
    kind->earlier += more->earlier;
    if (kind->text && ex_compare_kinds(more, kind) >= 0)
        return;
    uint64_t count = kind->count, earlier = kind->earlier;
    *kind = *more;
    kind->count = count;
    kind->earlier = earlier;
}

/* At the run's end: if it is this shard's, what it found counts. */
void ex_keep_found(void)
{
    bool is_seen[LIMITED + 1] = {false};
    if (!ex_is_own() || ex->path.goes_to)
        return;
    ex->total.schedules++;
    ex->total.given_up += ex->run.is_given_up;
    if (ex->run.steps > ex->total.longest)
        ex->total.longest = ex->run.steps;
    for (size_t at = 0; at < ex->found.count; at++) {
        keep(&ex->found.all[at]);
        if (!is_seen[ex->found.all[at].of])
            ex->total.counts[ex->found.all[at].of]++;
        is_seen[ex->found.all[at].of] = true;
    }
}

/* ---- The report. */
static void put_indented(const char *marked)
{
    char line[TEXT + 8], whole[TEXT];
    kz_unmark(whole, sizeof whole, marked);
    for (const char *text = whole; *text;) {
        size_t length = strcspn(text, "\n");
        snprintf(line, sizeof line, "    %.*s\n", (int)length, text);
        ex_put_sources(stdout, line);
        text += length + (text[length] == '\n');
    }
}

/* Its first line. */
void ex_put_kind_line(const Kind *kind)
{
    char line[TEXT];
    snprintf(line, sizeof line, "%.*s", (int)strcspn(kind->text, "\n"), kind->text);
    put_indented(line);
}

/* `count` is how many it stands for. */
void ex_report_kind(const Kind *kind, unsigned count)
{
    printf("\n%llu schedules:\n", (unsigned long long)(kind->count ? kind->count : kind->earlier));
    put_indented(kind->text);
    if (count > 1)
        printf("    and %u more %s\n", count - 1, kind->sort ? "between the same two lines" : "at the same line");
    printf("  the shortest: %u preemptions, %u switches, %u steps\n", kind->preemptions, kind->switches, kind->steps);
    printf("  --replay '%s'%s\n", kind->schedule, ex->search.is_coarse ? " --coarse" : "");
    if (kind->seed && ex->search.pct)
        printf("  --seed %llu --runs 1 --pct %u\n", (unsigned long long)kind->seed, ex->search.pct);
    else if (kind->seed)
        printf("  --seed %llu --runs 1\n", (unsigned long long)kind->seed);
}

void ex_report(void)
{
    const unsigned *counts = ex_count_kinds();
    for (int at = 0; at < ex->kinds.count; at++)
        if (counts[at])
            ex_report_kind(&ex->kinds.all[at], counts[at]);
}
