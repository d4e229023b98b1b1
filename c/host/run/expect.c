/* Expectations: what the last request answered, which callbacks it called, and what was told. What is unmet is said in words. */
#include "run/expect.h"

#include "core/memory.h"
#include "core/status.h"
#include "run/explain.h"
#include "run/read.h"
#include "run/report.h"
#include "run/seen.h"
#include "run/statusnames.h"

#include <stdlib.h>

static char now[2 * KZ_BYTES + 64]; /* what there is in place of what was expected */

static void say_bytes(char *room, size_t size)
{
    size_t used = 0;
    room[0] = 0;
    for (size_t at = 0; at < kz_seen.length && used + 3 < size; at++)
        used += (size_t)snprintf(room + used, size - used, "%02x", kz_seen.bytes[at]);
    if (!kz_seen.length)
        snprintf(room, size, "-");
}

static bool is_told(const char *id, char *now, size_t size)
{
    bool is_nothing = strcmp(id, "nothing") == 0;
    size_t used = (size_t)snprintf(now, size, "told");
    for (size_t at = 0; at < kz_seen.told_count; at++) {
        char own[16];
        snprintf(own, sizeof own, "KZ%04d", kz_seen.told[at].message);
        if (strcmp(own, id) == 0 && !kz_seen.told[at].is_expected) {
            kz_seen.told[at].is_expected = true;
            kz.counts.told -= kz_seen.told[at].is_counted;
            return true;
        }
        if (used + 16 < size)
            used += (size_t)snprintf(now + used, size - used, " %s", own);
    }
    if (!kz_seen.told_count)
        snprintf(now, size, "told nothing");
    return is_nothing && !kz_seen.told_count;
}

/* A number of the manager's, or the kit's own status by its name or as 0xc0000022. */
static bool is_status(const char *value, char *now, size_t size)
{
    char *end;
    NTSTATUS status = kz_seen.other ? kz_seen.other : kz_ntstatus(kz_seen.reply.status);
    int64_t wanted = strncmp(value, "0x", 2) == 0 ? (int64_t)strtoul(value, &end, 16) : kz_status_named(value);
    if (wanted < 0 || kz_seen.reply.held) {
        snprintf(now, size, kz_seen.reply.held ? "held" : "status %u", kz_seen.reply.status);
        return !kz_seen.reply.held && strtoul(value, &end, 10) == kz_seen.reply.status && !*end;
    }
    snprintf(now, size, "status 0x%08x", (unsigned)status);
    return (uint32_t)wanted == (uint32_t)status;
}

/* Whether it is met; `now` is what there is instead. */
static bool is_met(const char *kind, const char *value, char *now, size_t size)
{
    char *end;
    if (strcmp(kind, "status") == 0)
        return is_status(value, now, size);
    if (strcmp(kind, "says") == 0) {
        snprintf(now, size, "says %s", *kz_seen.says ? kz_seen.says : "nothing");
        return strcmp(now + 5, value) == 0;
    }
    if (strcmp(kind, "info") == 0) {
        snprintf(now, size, "info %llu", (unsigned long long)kz_seen.reply.information);
        return strtoull(value, &end, 10) == kz_seen.reply.information && !*end;
    }
    if (strcmp(kind, "bytes") == 0) {
        say_bytes(now, size);
        return strcmp(now, value) == 0;
    }
    if (strcmp(kind, "callbacks") == 0) {
        const char *called = kz_callbacks();
        snprintf(now, size, "callbacks %s", *called ? called : "none");
        return strcmp(now + 10, value) == 0;
    }
    return is_told(value, now, size);
}

static bool is_kind(const char *kind)
{
    static const char *const kinds[] = {"status", "info", "bytes", "says", "callbacks", "told"};
    for (size_t at = 0; at < sizeof kinds / sizeof kinds[0]; at++)
        if (strcmp(kinds[at], kind) == 0)
            return true;
    return false;
}

/* Kinds with one word behind them. */
static bool expects_one_word(const char *kind)
{
    return is_kind(kind) && strcmp(kind, "says") != 0 && strcmp(kind, "callbacks") != 0;
}

/* A status is a number or a name of the kit's, and what is told is `nothing` or a number of a report. */
static bool is_value(const char *kind, const char *value)
{
    char *end;
    if (strcmp(kind, "told") == 0)
        return strcmp(value, "nothing") == 0 || kz_is_explained(value) || kz_refuse_word("there is no report `%.40s`: docs/TOLD.md has all", value);
    if (strcmp(kind, "status") != 0 || kz_status_named(value) >= 0 || (strtoul(value, &end, 0), end > value && !*end))
        return true;
    const char *near = kz_nearest_status(value);
    return kz_refuse_word("there is no status `%.60s`%s%s", value, near ? "; the nearest is " : "", near ? near : "");
}

static void say_unmet(const char *words)
{
    kz_seen.unmet++;
    kz_say(KZ_SAID_UNMET, "unmet: %.900s\n", now);
    if (kz_seen.file)
        fprintf(stderr, "%s:%u: expected %.*s, and there is %.900s\n", kz_seen.file, kz_seen.line, (int)strcspn(words, "\r\n"), words, now);
}

/* With room for all that is said of a kind. */
static bool expect(const char *words, char *value)
{
    char kind[16] = "", *end;
    size_t used = strcspn(words, " \t\r\n");
    snprintf(kind, sizeof kind, "%.*s", (int)used, words);
    strcpy(value, words + used + strspn(words + used, " \t"));
    for (end = value + strlen(value); end > value && strchr(" \t\r\n", end[-1]); end--)
        end[-1] = 0;
    bool is_held = strncmp(words, "held", 4) == 0 && !*value;
    if (!is_held && !is_kind(kind))
        return kz_refuse_word("`%s` is none of status, info, bytes, says, callbacks, told, held", kind);
    if (!is_held && (!*value || (expects_one_word(kind) && strpbrk(value, " \t"))))
        return kz_refuse_word("expect %s has %s", kind, expects_one_word(kind) ? "one word behind it, and each expectation a line of its own" : "words behind it");
    if (!is_held && !is_value(kind, value))
        return false;
    kz_seen.expected++;
    kz_seen.looked_for += strcmp(kind, "callbacks") == 0;
    bool is_right = is_held ? kz_seen.reply.held : is_met(kind, value, now, sizeof now);
    if (is_held)
        snprintf(now, sizeof now, "status %u", kz_seen.reply.status);
    kz_report_expectation(words, is_right ? NULL : now);
    if (is_right)
        return true;
    say_unmet(words);
    return true;
}

bool kz_expect(const char *words)
{
    char *value = kz_memory(strlen(words) + 1);
    bool is_understood = expect(words, value);
    free(value);
    return is_understood;
}
