/* What a run found, for programs that read findings: a compiler's line, a command of a job of GitHub's, SARIF, a test case of JUnit. */
#include "run/finding.h"

#include "core/memory.h"
#include "core/source.h"
#include "run/explain.h"
#include "run/report.h"
#include "run/seen.h"

#include <stdlib.h>
#include <sys/wait.h>
#include <unistd.h>

bool kz_read_format(const char *name, KzFormat *format)
{
    static const char *const names[] = {"", "gcc", "github", "sarif"};
    for (KzFormat at = KZ_GCC; at <= KZ_SARIF; at++)
        if (strcmp(name, names[at]) == 0) {
            *format = at;
            return true;
        }
    return false;
}

/* ---- What is kept. */
static KzFinding *add(KzFindings *all, const char *rule, bool is_limit, const char *text)
{
    KzFinding *made = kz_memory(sizeof *made);
    *made = (KzFinding){.is_limit = is_limit, .text = kz_copy_of(text), .request = kz_line()};
    snprintf(made->rule, sizeof made->rule, "%s", rule);
    *all->last = made;
    all->last = &made->next;
    return made;
}

static void drop(KzFinding *one)
{
    free(one->text);
    free(one->path);
    free(one);
}

/* The source's line, as `path:12`, taken apart. */
static void set_source(KzFinding *one, const KzPlace *place)
{
    char path[512];
    uintptr_t address = place->from ? kz_in_file(place->from) : place->function ? kz_in_file(place->function) + 1 : 0;
    char *colon = address && kz_find_path(address, path, sizeof path) ? strrchr(path, ':') : NULL;
    if (!colon)
        return;
    *colon = 0;
    one->line = (unsigned)strtoul(colon + 1, NULL, 10);
    one->path = kz_copy_of(path);
}

void kz_find(KzFindings *all, const KzSaid *said)
{
    char id[16], text[1800];
    if (said->kind == KZ_SAID_AGAIN)
        return;
    kz_readable(text, sizeof text, said->text);
    text[strcspn(text, "\n")] = 0;
    snprintf(id, sizeof id, "KZ%04d", said->message);
    const char *words = strstr(text, id);
    KzFinding *made = add(all, id, said->kind == KZ_SAID_LIMIT, words ? words + strlen(id) + 1 : text);
    set_source(made, said->place);
    made->request = said->place->line ? said->place->line : made->request;
}

void kz_find_unmet(KzFindings *all, const char *words, const char *instead)
{
    char text[1600];
    snprintf(text, sizeof text, "expected %.*s, and there is %.700s", (int)strcspn(words, "\r\n"), words, instead);
    add(all, "expect", false, text);
}

void kz_find_meant(KzFindings *all, const char *id)
{
    KzFinding **newest = NULL;
    for (KzFinding **at = &all->first; *at; at = &(*at)->next)
        newest = strcmp((*at)->rule, id) == 0 ? at : newest;
    if (!newest)
        return;
    KzFinding *one = *newest;
    *newest = one->next;
    all->last = one->next ? all->last : newest;
    drop(one);
}

/* ---- A compiler's line, and a command of a job of GitHub's. */
static const char *beside(const char *path)
{
    char here[1024];
    size_t length = getcwd(here, sizeof here) ? strlen(here) : 0;
    return length && strncmp(path, here, length) == 0 && path[length] == '/' ? path + length + 1 : path;
}

static void put_gcc(const KzFinding *one, const char *path, unsigned line, const char *file)
{
    printf("%s:%u:1: %s: %s [%s]\n", path, line, one->is_limit ? "warning" : "error", one->text, one->rule);
    if (one->path && one->request)
        printf("%s:%u:1: note: the request\n", file, one->request);
}

/* The letters that a command takes for its own stand as % and two digits. */
static void put_escaped(const char *text, const char *letters)
{
    for (; *text; text++)
        printf(strchr(letters, *text) ? "%%%02X" : "%c", (unsigned char)*text);
}

static void put_github(const KzFinding *one, const char *path, unsigned line)
{
    printf("::%s file=", one->is_limit ? "warning" : "error");
    put_escaped(path, "%\r\n:,");
    printf(",line=%u,title=%s::", line, one->rule);
    put_escaped(one->text, "%\r\n");
    printf("\n");
}

/* ---- SARIF 2.1.0. */
static void put_quoted(const char *text)
{
    char quoted[4000];
    kz_json_text(quoted, sizeof quoted, text);
    printf("%s", quoted);
}

/* A path below the current folder is named from there; another one is whole. */
static void put_location(const char *path, unsigned line, const char *words)
{
    printf("{\"physicalLocation\": {\"artifactLocation\": {\"uri\": \"");
    printf(*path == '/' ? "file://" : "");
    for (; *path; path++)
        printf(strchr(" \"%<>\\^`{|}", *path) || (unsigned char)*path > 126 || *path < ' ' ? "%%%02X" : "%c", (unsigned char)*path);
    printf("\"}, \"region\": {\"startLine\": %u}}", line);
    if (words) {
        printf(", \"message\": {\"text\": ");
        put_quoted(words);
        printf("}");
    }
    printf("}");
}

static void put_sarif(const KzFinding *one, const char *path, unsigned line, const char *file)
{
    printf("{\"ruleId\": \"%s\", \"level\": \"%s\", \"message\": {\"text\": ", one->rule, one->is_limit ? "note" : "error");
    put_quoted(one->text);
    printf("}, \"locations\": [");
    put_location(path, line, NULL);
    printf("]");
    if (one->path && one->request) {
        printf(", \"relatedLocations\": [");
        put_location(file, one->request, "the request");
        printf("]");
    }
    printf("}\n");
}

static void put_rule(const char *id, const char *done, const char *windows, const char *mend, bool is_limit)
{
    printf("\n{\"id\": \"%s\", \"shortDescription\": {\"text\": ", id);
    put_quoted(done);
    printf("}, \"fullDescription\": {\"text\": ");
    put_quoted(*windows ? windows : done);
    printf("}, \"help\": {\"text\": ");
    put_quoted(*mend ? mend : done);
    printf("}, \"defaultConfiguration\": {\"level\": \"%s\"}}", is_limit ? "note" : "error");
}

static void put_meaning(const char *id, const char *done, const char *windows, const char *mend, bool is_limit)
{
    put_rule(id, done, windows, mend, is_limit);
    printf(",");
}

static void put_head(void)
{
    printf("{\"$schema\": \"https://json.schemastore.org/sarif-2.1.0.json\", \"version\": \"2.1.0\", \"runs\": [{\"tool\": {\"driver\": {\"name\": \"Kazdrin\", \"rules\": [");
    kz_each_meaning(put_meaning);
    put_meaning("expect", "an expectation of the requests isn't met", "", "", false);
    put_rule("CRASH", "the driver crashed", "the machine stops with a bug check", "the line that the crash names says where", false);
    printf("]}}, \"results\": [\n");
}

/* ---- All findings. */
static void put_one(KzFormat format, const KzFinding *one, const char *file)
{
    const char *requests = beside(file), *path = one->path ? beside(one->path) : requests;
    unsigned line = one->path ? one->line : one->request ? one->request : 1;
    if (format == KZ_GCC)
        put_gcc(one, path, line, requests);
    if (format == KZ_GITHUB)
        put_github(one, path, line);
    if (format == KZ_SARIF)
        put_sarif(one, path, line, requests);
}

void kz_put_findings(KzFindings *all, const char *file, void (*put)(const KzFinding *one))
{
    while (all->first) {
        KzFinding *one = all->first;
        all->first = one->next;
        put_one(all->format, one, file);
        put(one);
        drop(one);
    }
    all->last = &all->first;
    if (all->format)
        fflush(stdout);
}

/* ---- The runs are a child's: so the document has its end, and a crash is a finding, whatever becomes of them. */

/* What a crash says: `CRASH SIGSEGV: filter .., at file.c:12, ..`. */
static void put_crash(KzFormat format, char *line)
{
    KzFinding one = {.rule = "CRASH", .text = line + strlen("CRASH ")};
    char path[200] = "";
    line[strcspn(line, "\n")] = 0;
    const char *at = strstr(line, ", at ");
    if (at && sscanf(at, ", at %199[^:,]:%u", path, &one.line) == 2)
        one.path = path;
    put_one(format, &one, *path ? path : "requests");
}

static void pass_on(KzFormat format, FILE *from)
{
    char *line = NULL;
    size_t size = 0;
    bool has_one = false;
    while (getline(&line, &size, from) > 0) {
        bool is_crash = strncmp(line, "CRASH ", 6) == 0, is_result = format == KZ_SARIF && (*line == '{' || is_crash);
        if (is_result && has_one)
            printf(",\n");
        has_one |= is_result;
        if (is_crash)
            put_crash(format, line);
        else
            fputs(line, stdout);
    }
    free(line);
}

static _Noreturn void run_in_child(int (*perform)(const void *asked), const void *asked, const int ends[2])
{
    dup2(ends[1], STDOUT_FILENO);
    close(ends[0]);
    close(ends[1]);
    int status = perform(asked);
    fflush(stdout);
    _exit(status);
}

int kz_run_found(KzFormat format, int (*perform)(const void *asked), const void *asked)
{
    int status = 0, ends[2];
    if (!format)
        return perform(asked);
    if (pipe(ends) != 0)
        return 3;
    if (format == KZ_SARIF)
        put_head();
    fflush(stdout);
    pid_t child = fork();
    if (child == 0)
        run_in_child(perform, asked, ends);
    close(ends[1]);
    FILE *from = fdopen(ends[0], "r");
    if (from)
        pass_on(format, from);
    if (child > 0)
        waitpid(child, &status, 0);
    if (format == KZ_SARIF)
        printf("]}]}\n");
    return child < 0 ? 3 : WIFSIGNALED(status) ? 128 + WTERMSIG(status) : WEXITSTATUS(status);
}
