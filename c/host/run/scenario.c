/* A scenario: set-up lines, `client NAME: request; request`, and `finally: request`, for when nobody else can go on. */
#include "run/scenario.h"

#include "core/client.h"
#include "core/memory.h"
#include "run/line.h"

#include <stdlib.h>

static char *trimmed(char *text)
{
    text += strspn(text, " \t\r\n");
    size_t length = strlen(text);
    while (length && strchr(" \t\r\n", text[length - 1]))
        text[--length] = 0;
    return text;
}

static struct {
    char line[KZ_LINE];
    char why[200]; /* the last line isn't understood, behind a colon */
} read;

static bool add_requests(KzScript *one, char *text)
{
    char *rest = NULL;
    for (char *request = strtok_r(text, ";", &rest); request; request = strtok_r(NULL, ";", &rest)) {
        request = trimmed(request);
        if (!*request)
            continue;
        if (one->count == KZ_REQUESTS || !kz_is_request(request, read.why, sizeof read.why))
            return false;
        one->requests[one->count++] = kz_copy_of(request);
    }
    return one->count > 0;
}

static bool is_name(const KzScenario *scenario, const char *name)
{
    static const char *const others[] = {"fail", "inside", "late", "seen", "work"}; /* what else stands in a schedule */
    size_t length = strspn(name, "abcdefghijklmnopqrstuvwxyzABCDEFGHIJKLMNOPQRSTUVWXYZ0123456789_-");
    if (!length || name[length] || length > 30)
        return false;
    for (size_t at = 0; at < sizeof others / sizeof others[0]; at++)
        if (strcmp(others[at], name) == 0)
            return false;
    for (size_t at = 0; at < scenario->clients_count; at++)
        if (strcmp(scenario->clients[at].name, name) == 0)
            return false;
    return true;
}

bool kz_is_same_script(const KzScript *a, const KzScript *b)
{
    bool is_same = a->count == b->count && a->is_finally == b->is_finally;
    for (size_t at = 0; is_same && at < a->count; at++)
        is_same = strcmp(a->requests[at], b->requests[at]) == 0;
    return is_same;
}

static bool read_client(KzScenario *scenario, char *line)
{
    char *colon = strchr(line, ':');
    if (!colon || scenario->clients_count == KZ_CLIENTS)
        return false;
    *colon = 0;
    bool is_finally = strcmp(trimmed(line), "finally") == 0;
    const char *name = is_finally ? "finally" : trimmed(line + strlen("client"));
    if (!is_name(scenario, name))
        return false;
    KzScript *one = &scenario->clients[scenario->clients_count++];
    snprintf(one->name, sizeof one->name, "%s", name);
    one->is_finally = is_finally;
    return add_requests(one, colon + 1);
}

static bool read_line(KzScenario *scenario, char *line)
{
    line[strcspn(line, "#")] = 0;
    line = trimmed(line);
    if (!*line)
        return true;
    if (strncmp(line, "client ", 7) == 0 || strncmp(line, "finally:", 8) == 0)
        return read_client(scenario, line);
    if (scenario->clients_count > 0 || !kz_is_request(line, read.why, sizeof read.why))
        return false;
    scenario->setup = realloc(scenario->setup, (scenario->setup_count + 1) * sizeof *scenario->setup);
    scenario->setup[scenario->setup_count++] = kz_copy_of(line);
    return true;
}

/* ---- Names of handles: each that a request asks for is given by a create, of whatever client. */
static bool gives(const KzScenario *scenario, const char *name)
{
    char given[64];
    bool is_given = false;
    for (size_t at = 0; !is_given && at < scenario->setup_count; at++)
        is_given = kz_gives_name(scenario->setup[at], given, sizeof given) && strcmp(given, name) == 0;
    for (size_t at = 0; at < scenario->clients_count; at++)
        for (size_t request = 0; !is_given && request < scenario->clients[at].count; request++)
            is_given = kz_gives_name(scenario->clients[at].requests[request], given, sizeof given) && strcmp(given, name) == 0;
    return is_given;
}

static bool knows(const KzScenario *scenario, const char *path, const char *request)
{
    char name[64];
    bool is_known = !kz_takes_name(request, name, sizeof name) || gives(scenario, name);
    if (!is_known)
        fprintf(stderr, "%s: not understood: %s: no create is `as %s`\n", path, request, name);
    return is_known;
}

static bool knows_all(const KzScenario *scenario, const char *path)
{
    bool is_known = true;
    for (size_t at = 0; is_known && at < scenario->setup_count; at++)
        is_known = knows(scenario, path, scenario->setup[at]);
    for (size_t at = 0; at < scenario->clients_count; at++)
        for (size_t request = 0; is_known && request < scenario->clients[at].count; request++)
            is_known = knows(scenario, path, scenario->clients[at].requests[request]);
    return is_known;
}

int kz_read_scenario(const char *path, KzScenario *scenario)
{
    FILE *file = fopen(path, "r");
    int number = 0;
    bool is_right = true;
    if (!file) {
        fprintf(stderr, "%s: can't be read\n", path);
        return 3;
    }
    while (is_right && fgets(read.line, sizeof read.line, file)) {
        number++;
        *read.why = 0;
        is_right = read_line(scenario, read.line);
    }
    fclose(file);
    if (!is_right)
        fprintf(stderr, "%s:%d: not understood%s\n", path, number, read.why);
    else if (!scenario->clients_count)
        fprintf(stderr, "%s: has no client\n", path);
    return is_right && scenario->clients_count && knows_all(scenario, path) ? 0 : 2;
}

void kz_free_scenario(KzScenario *scenario)
{
    for (size_t at = 0; at < scenario->setup_count; at++)
        free(scenario->setup[at]);
    free(scenario->setup);
    for (size_t at = 0; at < scenario->clients_count; at++)
        for (size_t request = 0; request < scenario->clients[at].count; request++)
            free(scenario->clients[at].requests[request]);
    *scenario = (KzScenario){0};
}
