/* Reports for other programs: an object of JSON a line, and a file of JUnit with a test case for each expectation. */
#include "run/report.h"

#include "core/client.h"
#include "core/memory.h"
#include "core/source.h"
#include "run/finding.h"
#include "run/seen.h"

#include <stdarg.h>
#include <stdlib.h>
#include <time.h>

typedef struct Case {
    struct Case *next;
    char *name, *unmet, *path; /* the path and the line of what is reported */
    unsigned line;
    double seconds;
} Case;

static struct {
    bool is_json;
    const char *junit;
    Case *cases, **last;
    unsigned count, failed;
    struct timespec since;
    KzFindings found;
} report = {.last = &report.cases, .found.last = &report.found.first};

static double seconds_since(struct timespec *since)
{
    struct timespec now;
    clock_gettime(CLOCK_MONOTONIC, &now);
    double seconds = (double)(now.tv_sec - since->tv_sec) + (double)(now.tv_nsec - since->tv_nsec) / 1e9;
    *since = now;
    return seconds;
}

void kz_use_json(bool is)
{
    report.is_json = is;
    kz_is_quiet |= is;
}

bool kz_use_format(const char *name)
{
    bool is_one = kz_read_format(name, &report.found.format);
    kz_is_quiet |= is_one;
    return is_one;
}

bool kz_has_format(void)
{
    return report.found.format != KZ_NO_FORMAT;
}

int kz_run_reported(int (*perform)(const void *asked), const void *asked)
{
    return kz_run_found(report.found.format, perform, asked);
}

bool kz_is_json(void)
{
    return report.is_json;
}

void kz_use_junit(const char *path)
{
    report.junit = path;
}

/* A text of JSON, with its quotes: what isn't from the space to `~` stands as `\x` and two digits. */
void kz_json_text(char *room, size_t size, const char *text)
{
    size_t used = 0;
    room[used++] = '"';
    for (; *text && used + 8 < size; text++) {
        unsigned char letter = (unsigned char)*text;
        if (letter == '"' || letter == '\\')
            used += (size_t)snprintf(room + used, size - used, "\\%c", letter);
        else if (letter < ' ' || letter > 126)
            used += (size_t)snprintf(room + used, size - used, "\\\\x%02x", letter);
        else
            room[used++] = (char)letter;
    }
    room[used++] = '"';
    room[used] = 0;
}

void kz_report_event(const char *event, const char *members)
{
    char words[600];
    if (!report.is_json)
        return;
    kz_json_text(words, sizeof words, kz_command());
    printf("{\"line\": %u, \"command\": %s, \"event\": \"%s\"%s%s}\n", kz_line(), words, event, *members ? ", " : "", members);
}

void kz_report_begin(const char *file)
{
    char name[600];
    seconds_since(&report.since);
    if (!report.is_json)
        return;
    kz_json_text(name, sizeof name, file);
    printf("{\"line\": 0, \"event\": \"Run\", \"format\": 1, \"origin\": \"driver\", \"file\": %s}\n", name);
}

/* A callback in the words of docs/JSON.md. */
const char *kz_callback_name(KzCallback callback)
{
    switch (callback) {
    case KZ_IN_PRE:
        return "preoperation";
    case KZ_IN_POST:
        return "postoperation";
    case KZ_IN_START:
        return "teardown-start";
    case KZ_IN_COMPLETE:
        return "teardown-complete";
    default:
        return kz_callback_word(callback);
    }
}

/* ---- What is told. */
typedef struct {
    char text[6000];
    size_t used;
} Members;

__attribute__((format(printf, 2, 3))) static void add(Members *members, const char *format, ...)
{
    va_list arguments;
    va_start(arguments, format);
    int put = vsnprintf(members->text + members->used, sizeof members->text - members->used, format, arguments);
    va_end(arguments);
    members->used += (size_t)put < sizeof members->text - members->used ? (size_t)put : sizeof members->text - members->used - 1;
}

static void add_text(Members *members, const char *name, const char *text)
{
    char quoted[2200];
    if (!text)
        return;
    kz_json_text(quoted, sizeof quoted, text);
    add(members, ", \"%s\": %s", name, quoted);
}

static void add_source(Members *members, const KzPlace *place)
{
    char line[100];
    uintptr_t address = place->from ? kz_in_file(place->from) : place->function ? kz_in_file(place->function) + 1 : 0;
    if (address && kz_find_source(address, line, sizeof line))
        add_text(members, "source", line);
    add_text(members, "routine", place->from ? place->call : NULL);
}

static void add_place(Members *members, const KzSaid *said)
{
    const KzPlace *place = said->place;
    add_text(members, "name", place->filter ? place->filter->driver->name : NULL);
    if (place->instance)
        add(members, ", \"instance\": \"i%u\"", place->instance->id);
    add_text(members, "callback", kz_callback_name(place->callback));
    if (place->op)
        add(members, ", \"operation\": \"o%llu\", \"major\": \"%s\"", (unsigned long long)place->op_id, FltGetIrpName(place->major));
    add_text(members, "began", place->request);
    if (place->line)
        add(members, ", \"began_line\": %u", place->line);
    add_text(members, "path", place->path);
    add_source(members, place);
    if (said->object)
        add(members, ", \"object\": \"%p\"", said->object);
}

void kz_report_told(const KzSaid *said)
{
    Members members = {.used = 0};
    char text[1800];
    if (kz_scheduler != &kz_in_order)
        return;
    kz_find(&report.found, said);
    if (!report.is_json)
        return;
    kz_readable(text, sizeof text, said->text);
    text[strcspn(text, "\n")] = 0;
    add(&members, "\"id\": \"KZ%04d\", \"telling\": \"%s\"", said->message, said->kind == KZ_SAID_LIMIT ? "limit" : "mistake");
    add_text(&members, "words", text);
    add_place(&members, said);
    kz_report_event(said->kind == KZ_SAID_AGAIN ? "Again" : "Told", members.text);
}

static Case *add_case(const char *name, const char *why)
{
    Case *made = kz_memory(sizeof *made);
    *made = (Case){.name = kz_copy_of(name), .unmet = why ? kz_copy_of(why) : NULL, .seconds = seconds_since(&report.since)};
    *report.last = made;
    report.last = &made->next;
    report.count++;
    report.failed += why != NULL;
    return made;
}

/* What is found is a case that fails; of a limit it is none. */
static void add_found(const KzFinding *one)
{
    char name[600];
    if (one->is_limit)
        return;
    if (one->request)
        snprintf(name, sizeof name, "line %u: %s", one->request, one->rule);
    else
        snprintf(name, sizeof name, "%s", one->rule);
    Case *made = add_case(name, one->text);
    made->path = one->path ? kz_copy_of(one->path) : NULL;
    made->line = one->line;
}

void kz_report_requests(void)
{
    kz_put_findings(&report.found, kz_seen.file ? kz_seen.file : "requests", add_found);
}

void kz_report_expectation(const char *words, const char *why)
{
    char name[400], members[2200], quoted[1000], instead[1000];
    if (!why) {
        snprintf(name, sizeof name, "line %u: expect %.300s", kz_line(), words);
        name[strcspn(name, "\r\n")] = 0;
        add_case(name, NULL);
        if (sscanf(words, "told %15s", name) == 1)
            kz_find_meant(&report.found, name);
        return;
    }
    kz_find_unmet(&report.found, words, why);
    kz_json_text(quoted, sizeof quoted, words);
    kz_json_text(instead, sizeof instead, why);
    snprintf(members, sizeof members, "\"expected\": %s, \"answered\": [%s]", quoted, instead);
    kz_report_event("Unmet", members);
}

/* ---- JUnit. */
static void put_xml(FILE *file, const char *text)
{
    for (; *text; text++) {
        if (strchr("<>&\"", *text))
            fprintf(file, "&#%d;", *text);
        else if ((unsigned char)*text >= ' ')
            fputc(*text, file);
    }
}

static void put_case(FILE *file, const Case *one)
{
    fputs("  <testcase name=\"", file);
    put_xml(file, one->name);
    fprintf(file, "\" time=\"%.3f\"", one->seconds);
    if (one->path) {
        fputs(" file=\"", file);
        put_xml(file, one->path);
        fprintf(file, "\" line=\"%u\"", one->line);
    }
    if (!one->unmet) {
        fputs("/>\n", file);
        return;
    }
    fputs("><failure message=\"", file);
    put_xml(file, one->unmet);
    fputs("\"/></testcase>\n", file);
}

static void put_suite(FILE *file, const char *name)
{
    fputs("<?xml version=\"1.0\" encoding=\"UTF-8\"?>\n<testsuite name=\"", file);
    put_xml(file, name);
    fprintf(file, "\" tests=\"%u\" failures=\"%u\">\n", report.count, report.failed);
    for (const Case *one = report.cases; one; one = one->next)
        put_case(file, one);
    fputs("</testsuite>\n", file);
}

static bool is_junit_put(const char *name)
{
    FILE *file = fopen(report.junit, "w");
    bool is_put = file != NULL;
    if (file) {
        put_suite(file, name);
        is_put = !ferror(file);
        is_put &= fclose(file) == 0;
    }
    if (!is_put)
        fprintf(stderr, "%s: can't be written\n", report.junit);
    return is_put;
}

static void free_cases(void)
{
    while (report.cases) {
        Case *one = report.cases;
        report.cases = one->next;
        free(one->name);
        free(one->unmet);
        free(one->path);
        free(one);
    }
    report.last = &report.cases;
    report.count = report.failed = 0;
}

/* How a run went, in the words of docs/JSON.md. */
static const char *verdict_of(int status)
{
    switch (status) {
    case 0:
        return "Well";
    case 1:
        return "Unexpected";
    case 2:
        return "WrongLine";
    case 3:
        return "ReadFault";
    default:
        return "Left";
    }
}

int kz_report_end(const char *name, int status)
{
    char members[400];
    kz_report_requests();
    if (!kz.counts.told)
        add_case("nothing is reported", NULL);
    if (report.junit && !is_junit_put(name) && status == 0)
        status = 3;
    snprintf(members, sizeof members, "\"verdict\": \"%s\", \"born\": %llu, \"cleaned\": %llu, \"leaks\": %llu, \"told\": %llu, \"limits\": %llu, \"unmet\": %u, \"status\": %d",
             verdict_of(status), (unsigned long long)kz.counts.born, (unsigned long long)kz.counts.cleaned, (unsigned long long)kz.counts.leaked,
             (unsigned long long)kz.counts.told, (unsigned long long)kz.counts.limits, kz_unmet(), status);
    kz_report_event("End", members);
    free_cases();
    return status;
}
