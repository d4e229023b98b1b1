/* Lines of requests: one, a set-up, those of a file. */
#include "run/runfile.h"

#include "core/client.h"
#include "core/clock.h"
#include "core/kept.h"
#include "core/spell.h"
#include "core/state.h"
#include "kit/port.h"
#include "run/expect.h"
#include "run/line.h"
#include "run/read.h"
#include "run/reply.h"
#include "run/report.h"
#include "run/seen.h"
#include "run/words.h"

static const KzReply bad = {.status = KZS_BAD_REQUEST};

/* Of a file's run: what would have all that comes behind it pass for nothing. */
static struct {
    unsigned requests;  /* how many there were */
    unsigned of_files;  /* of these */
    bool is_refused;    /* the last one was a load, an attach or a mount which was refused, or was of a handle that isn't there */
    unsigned line;      /* where one was that no expectation stands behind; 0 if there is none */
    char words[200];
    char near[100]; /* the driver whose name is nearest to that of a load which names none */
    bool is_wrong; /* the last line isn't understood */
    char text[KZ_LINE];
} seen;

static bool is_of_file(void)
{
    return kz_line() > 0;
}

void kz_note_refused(uint32_t status)
{
    seen.is_refused = status != KZS_OK;
}

void kz_note_near(const char *name)
{
    if (!seen.line)
        snprintf(seen.near, sizeof seen.near, "%s", name ? name : "");
}

/* No expectation stands behind the last request. */
static void note_unexpected(void)
{
    if (seen.is_refused && !seen.line) {
        seen.line = kz_request_line();
        snprintf(seen.words, sizeof seen.words, "%s", kz_command());
    }
    seen.is_refused = false;
}

#define BLANKS " \t\r\n"

static void say_bad(void)
{
    kz_print_reply(bad, STATUS_SUCCESS, NULL, 0);
}

KzReply kz_wrong(void)
{
    __atomic_store_n(&seen.is_wrong, true, __ATOMIC_RELAXED);
    say_bad();
    return bad;
}

/* The end of a word: its closing quote, or the blank after it. */
static char *end_of(char *word, bool *is_quoted)
{
    char *end = *word == '"' ? strchr(word + 1, '"') : NULL;
    *is_quoted = end && end > word + 1 && strchr(BLANKS, end[1]); /* one that has letters after it is an expression's */
    return *is_quoted ? end : word + strcspn(word, BLANKS);
}

size_t kz_split(char *line, char **words)
{
    size_t count = 0;
    bool is_quoted;
    for (char *word = line + strspn(line, BLANKS), *end; *word && count < KZ_WORDS; word = end + strspn(end, BLANKS)) {
        end = end_of(word, &is_quoted);
        words[count++] = word + is_quoted;
        if (*end)
            *end++ = 0;
    }
    words[count] = NULL;
    return count;
}

/* An expectation, which has a request before it. */
static bool is_read(const char *words)
{
    if (is_of_file() && !seen.requests)
        return kz_refuse_word("there is no request before it");
    return kz_expect(words);
}

static KzReply asked_of(const KzRequest *one, char **words, size_t count)
{
    if (!one || count < one->least || count > one->most)
        return kz_wrong();
    KzReply reply = one->ask(words);
    seen.of_files += one->takes_handle || strcmp(one->name, "create") == 0;
    if (is_of_file() && !reply.held && reply.status == KZS_NO_HANDLE)
        kz_note_refused(reply.status);
    return reply;
}

/* Words of UTF-8 as the host has them, behind the line; those for a program stay as they are. */
static bool are_letters(char **words, char *room)
{
    bool is_for_program = strcmp(words[0], "start") == 0 || strcmp(words[0], "type") == 0;
    for (; *words && !is_for_program; words++) {
        const char *letter = *words;
        while (*letter && !(*letter & 0x80))
            letter++;
        if (!*letter)
            continue;
        if (!kz_unspell(room, sizeof kz_me->line - (size_t)(room - kz_me->line), *words))
            return kz_refuse_word("`%.40s` is no UTF-8, or too long", *words);
        *words = room;
        room += strlen(room) + 1;
    }
    return true;
}

KzReply kz_request_as(const char *line, const char *asked)
{
    char *words[KZ_WORDS + 1];
    const char *expected = line + strspn(line, " \t");
    kz_forget_refused_word();
    if (strlen(line) + 1 >= sizeof kz_me->line)
        return kz_wrong();
    if (strncmp(expected, "expect ", 7) == 0) {
        kz_say(KZ_SAID_REQUEST, "> %.900s%s", expected, strchr(expected, '\n') ? "" : "\n");
        /* what is expected of a status speaks of a refusal, and what is expected of another thing doesn't */
        seen.is_refused &= strncmp(expected + 7, "status ", 7) != 0;
        return is_read(expected + 7) ? (KzReply){0} : kz_wrong();
    }
    strcpy(kz_me->line, line);
    size_t count = kz_split(kz_me->line, words);
    if (count == 0 || words[0][0] == '#')
        return (KzReply){0};
    KZ_CALL_OF(kz_a_request);
    if (is_of_file())
        note_unexpected();
    seen.requests++;
    kz_report_requests();
    kz_note_request(line);
    kz_me->request = asked ? asked : kz_kept_text(expected);
    kz_me->line_number = kz_scheduler == &kz_in_order ? kz_line() : 0;
    kz_forget_busy();
    if (!kz_scheduler->is_timeless || !kz_has_others())
        kz_tick();
    kz_say(KZ_SAID_REQUEST, ">");
    for (size_t at = 0; at < count; at++)
        kz_say(KZ_SAID_REQUEST, strchr(words[at], ' ') ? " \"%s\"" : " %s", words[at]);
    kz_say(KZ_SAID_REQUEST, "\n");
    return are_letters(words, kz_me->line + strlen(line) + 1) ? asked_of(kz_request_of(words[0]), words, count) : kz_wrong();
}

KzReply kz_request(const char *line)
{
    return kz_request_as(line, NULL);
}

int kz_set_up(char *const *lines, size_t count)
{
    for (size_t at = 0; at < count; at++) {
        bool is_expected = at + 1 < count && strncmp(lines[at + 1], "expect ", 7) == 0;
        seen.is_refused = false;
        KzReply reply = kz_request(lines[at]);
        bool is_bad = reply.status == KZS_BAD_REQUEST, is_refused = seen.is_refused || reply.status == KZS_NO_HANDLE;
        if (is_expected || !(is_bad || is_refused))
            continue;
        fprintf(stderr, "the set-up has a line that is %s: %s%s\n", is_refused ? "refused" : "no request", lines[at], is_refused ? "" : kz_refused_word());
        return is_refused ? 1 : 2;
    }
    return 0;
}

int kz_run(const KzDriver *drivers, size_t count, const char *const *lines, size_t length)
{
    if (kz_open(drivers, count) != 0)
        return 1;
    for (size_t at = 0; at < length; at++)
        kz_request(lines[at]);
    return kz_close();
}

/* What is no text of UTF-8: a zero byte in the line, or the mark that UTF-16 begins with. */
static bool is_other_text(const char *line, FILE *file, const char *name)
{
    bool is_cut = !strchr(line, '\n') && !feof(file) && strlen(line) + 1 < sizeof seen.text;
    bool is_wide = kz_line() == 1 && (strncmp(line, "\xff\xfe", 2) == 0 || strncmp(line, "\xfe\xff", 2) == 0);
    if (!is_cut && !is_wide)
        return false;
    fprintf(stderr, "%s:%u: %s: requests are text of UTF-8 or ASCII\n", name, kz_line(), is_wide ? "it is UTF-16" : "it has a zero byte");
    return true;
}

/* A line that is longer than any request is none: what is left of it is passed over. */
static void request_or_bad(const char *line, FILE *file)
{
    if (strchr(line, '\n') || feof(file)) {
        kz_request(line);
        kz_tell_messages();
        return;
    }
    for (int letter = getc(file); letter != '\n' && letter != EOF; letter = getc(file))
        ;
    say_bad();
}

/* A driver that began to filter, of which nothing was called: none of the file's requests came to it. It is meant so where they are of no file and something of
 * them is expected, or where it is expected which callbacks there are. Where they are of files, that its instances were set up isn't enough. */
static PFLT_FILTER idle_filter(void)
{
    bool is_meant = kz_seen.expected && (!seen.of_files || kz_seen.looked_for);
    uint32_t called = kz_seen.called | (seen.of_files ? 0 : kz_seen.set_up);
    for (size_t at = 0; at < kz.filters_count && !is_meant; at++) {
        PFLT_FILTER filter = kz.filters[at];
        const FLT_OPERATION_REGISTRATION *first = filter->registration.OperationRegistration;
        bool is_asked = filter->is_started && first && first->MajorFunction != IRP_MJ_OPERATION_END;
        if (is_asked && filter->id < 32 && !(called >> filter->id & 1))
            return filter;
    }
    return NULL;
}

static void tell_idle(const char *name, const char *driver, bool was_set_up)
{
    const char *but = was_set_up ? " but those of its instances: see whether they were attached" : ": attach it";
    fprintf(stderr, "%s: no callback of %s was called%s, and ask for what it registered\n", name, driver, but);
}

/* A run that tried nothing, or not what was meant, is no success. */
static int judged(int status, const char *name, const char *idle, bool was_set_up)
{
    if (seen.line)
        fprintf(stderr, "%s:%u: `%s` was refused, and no `expect status` after it says so%s%s\n", name, seen.line, seen.words, *seen.near ? "; the nearest is " : "", seen.near);
    if (status != 0)
        return status;
    if (!seen.requests)
        fprintf(stderr, "%s: there is no request in it\n", name);
    else if (!seen.line && idle)
        tell_idle(name, idle, was_set_up);
    return !seen.requests || seen.line || idle ? 1 : 0;
}

/* What is wrong with a line that wasn't understood. */
static void tell_wrong(const char *name, const char *line)
{
    char why[200];
    if (kz_is_request(line, why, sizeof why))
        snprintf(why, sizeof why, "%s", kz_refused_word());
    fprintf(stderr, "%s:%u: not understood%s\n", name, kz_line(), why);
}

static int run_file(const KzDriver *drivers, size_t count, FILE *file, const char *name)
{
    if (kz_open(drivers, count) != 0)
        return 1;
    memset(&seen, 0, sizeof seen);
    kz_report_begin(name);
    kz_seen.file = name;
    bool is_other = false;
    while (!seen.is_wrong && !is_other && fgets(seen.text, sizeof seen.text, file)) {
        kz_next_line();
        is_other = is_other_text(seen.text, file, name);
        bool is_marked = kz_line() == 1 && strncmp(seen.text, "\xef\xbb\xbf", 3) == 0; /* as some editors begin a text of UTF-8 */
        if (!is_other)
            request_or_bad(seen.text + (is_marked ? 3 : 0), file);
    }
    if (seen.is_wrong)
        tell_wrong(name, seen.text);
    note_unexpected();
    PFLT_FILTER filter = idle_filter();
    const char *idle = filter ? filter->driver->name : NULL;
    bool was_set_up = filter && kz_seen.set_up >> filter->id & 1;
    int status = kz_close();
    return kz_report_end(name, ferror(file) ? 3 : seen.is_wrong || is_other ? 2 : judged(status, name, idle, was_set_up));
}

int kz_run_file(const KzDriver *drivers, size_t count, FILE *file)
{
    return run_file(drivers, count, file, "requests");
}

int kz_run_path(const KzDriver *drivers, size_t count, const char *path)
{
    FILE *file = fopen(path, "r");
    int first = file ? fgetc(file) : EOF;
    bool is_folder = file && first == EOF && ferror(file);
    if (!file || is_folder) {
        fprintf(stderr, "%s: %s\n", path, is_folder ? "is a folder, and no file of requests" : "can't be read");
        if (file)
            fclose(file);
        return 3;
    }
    if (first != EOF)
        ungetc(first, file);
    else
        clearerr(file);
    int status = run_file(drivers, count, file, path);
    fclose(file);
    return status;
}
