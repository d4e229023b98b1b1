/* A run under two fills of memory that nobody wrote: replies, prints, and what goes to programs are to be the same. The run is played in processes of their own, so that the drivers' variables
 * are as new; it is played twice under the first fill, and what differs then by itself isn't compared. */
#define _GNU_SOURCE
#include "core/messages.h"
#include "core/unwritten.h"
#include "kzflt.h"

#include <stdbool.h>
#include <stdlib.h>
#include <string.h>
#include <sys/mman.h>
#include <sys/wait.h>
#include <unistd.h>

enum { ONE = 0xff, OTHER = 0, MOST = 20, SHOWN = 160 };

typedef struct {
    char *text;
    int status;
} Played;

typedef struct {
    const KzDriver *drivers;
    size_t count;
    const char *path;
} Run;

static char *read_all(int from)
{
    off_t size = lseek(from, 0, SEEK_END);
    char *text = calloc(1, (size_t)(size > 0 ? size : 0) + 1);
    if (text && size > 0 && pread(from, text, (size_t)size, 0) != size)
        text[0] = 0;
    return text;
}

/* What it writes to its standard error is said by the first one alone. */
static void become(const Run *run, uint8_t byte, int to, bool is_first)
{
    dup2(to, STDOUT_FILENO);
    if (!is_first && !freopen("/dev/null", "w", stderr))
        _exit(1);
    kz_fill_with(byte);
    int status = kz_run_path(run->drivers, run->count, run->path);
    fflush(stdout);
    _exit(status);
}

static Played play(const Run *run, uint8_t byte, bool is_first)
{
    int to = memfd_create("run", 0), status = 0;
    fflush(stdout);
    pid_t child = fork();
    if (child == 0)
        become(run, byte, to, is_first);
    if (child > 0)
        waitpid(child, &status, 0);
    Played played = {read_all(to), child < 0 ? 1 : WIFEXITED(status) ? WEXITSTATUS(status) : 128 + WTERMSIG(status)};
    close(to);
    return played;
}

typedef struct {
    const char *text;
    size_t length;
} Line;

static bool is_request(const char *text)
{
    return !*text || strncmp(text, "> ", 2) == 0;
}

/* The next one of each run; none of one that has come to its next request before the others: so a line that a run lacks is compared with none, and no other one. */
static Line take_line(const char **text, bool is_behind)
{
    if (is_behind && is_request(*text))
        return (Line){"", 0};
    Line line = {*text, strcspn(*text, "\n")};
    *text += line.length + ((*text)[line.length] == '\n');
    return line;
}

static bool is_same(Line a, Line b)
{
    return a.length == b.length && memcmp(a.text, b.text, a.length) == 0;
}

static int shown(Line line)
{
    return (int)(line.length < SHOWN ? line.length : SHOWN);
}

/* Behind which request of the input. */
static unsigned compare(const char *one, const char *again, const char *other)
{
    Line request = {"before the first request", 24};
    unsigned differences = 0;
    while ((*one || *other) && differences < MOST) {
        bool is_behind = !is_request(one) || !is_request(again) || !is_request(other);
        Line line = take_line(&one, is_behind), same = take_line(&again, is_behind), otherwise = take_line(&other, is_behind);
        if (!is_behind)
            request = (Line){line.text + 2, line.length > 2 ? line.length - 2 : 0};
        if (!is_same(line, same) || is_same(line, otherwise))
            continue;
        printf("TOLD KZ%04d --fill: memory that nobody wrote decides: `%.*s`, or else `%.*s`: %.*s\n", KZM_UNWRITTEN, shown(line), line.text, shown(otherwise), otherwise.text, shown(request), request.text);
        differences++;
    }
    return differences;
}

int kz_run_filled(const KzDriver *drivers, size_t count, const char *path)
{
    const Run run = {drivers, count, path};
    Played one = play(&run, ONE, true), again = play(&run, ONE, false), other = play(&run, OTHER, false);
    int status = one.status ? one.status : other.status;
    if (one.text && again.text && other.text) {
        fputs(one.text, stdout);
        status = compare(one.text, again.text, other.text) && !status ? 5 : status;
    }
    free(one.text);
    free(again.text);
    free(other.text);
    return status;
}
