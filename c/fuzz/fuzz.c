/* Random requests for one driver: fuzz SESSIONS SEED FILE. Each session has a process of its own. One that doesn't end with 0 is shrunk, as long as it ends as it did, and written to the file. */
#include "session.h"

#include "run/seen.h"

#include <signal.h>
#include <stdlib.h>
#include <string.h>
#include <sys/mman.h>
#include <sys/wait.h>
#include <unistd.h>

static char lines[REQUESTS][LINE];
static const char *session[REQUESTS];
static size_t count;
static uint64_t state;
static bool *has_called; /* whether a callback of a driver was called, in any session: their processes share it */

static unsigned below(unsigned limit)
{
    state ^= state << 13;
    state ^= state >> 7;
    state ^= state << 17;
    return (unsigned)((state >> 11) % limit);
}

static void make_session(uint64_t seed)
{
    state = seed * 0x9e3779b97f4a7c15ULL | 1;
    count = session_begin(lines);
    while (count < REQUESTS)
        session_request(lines[count++], below);
    for (size_t at = 0; at < count; at++)
        session[at] = lines[at];
}

static int play(const char *const *requests, size_t length)
{
    if (kz_open(kz_drivers, kz_drivers_count) != 0)
        return 1;
    for (size_t at = 0; at < length; at++)
        kz_request(requests[at]);
    *has_called |= kz_seen.called != 0;
    return kz_close();
}

/* How a run of these requests ends: its exit status, or 128 and the signal. */
static int run(const char *const *requests, size_t length, int output)
{
    fflush(stdout);
    pid_t child = fork();
    if (child == 0) {
        dup2(output, STDOUT_FILENO);
        dup2(output, STDERR_FILENO);
        alarm(10);
        exit(play(requests, length));
    }
    int status = 0;
    waitpid(child, &status, 0);
    return WIFSIGNALED(status) ? 128 + WTERMSIG(status) : WEXITSTATUS(status);
}

/* Leaves out what the failure doesn't need: ever smaller pieces. */
static bool leave_out(size_t from, size_t length, int failure, int output)
{
    const char *rest[REQUESTS];
    size_t kept = 0;
    for (size_t at = 0; at < count; at++)
        if (at < from || at >= from + length)
            rest[kept++] = session[at];
    if (run(rest, kept, output) != failure)
        return false;
    memcpy(session, rest, kept * sizeof *rest);
    count = kept;
    return true;
}

static void shrink(int failure, int output)
{
    for (size_t piece = count / 2; piece > 0; piece = piece > 1 ? piece / 2 : 0)
        for (size_t from = 0; from < count;)
            if (!leave_out(from, piece, failure, output))
                from += piece;
}

/* A number from the least on. */
static bool read_number(const char *word, unsigned long least, unsigned long *number)
{
    char *end;
    *number = strtoul(word, &end, 10);
    return *word >= '0' && *word <= '9' && !*end && *number >= least;
}

/* Plays the sessions up to the first that fails: its status. */
static int play_all(unsigned long sessions, unsigned long seed, const char *path, int nowhere)
{
    for (unsigned long at = 0; at < sessions; at++) {
        make_session(seed + at);
        int failure = run(session, count, nowhere);
        if (!failure)
            continue;
        shrink(failure, nowhere);
        printf("seed %lu ends with %d: %zu requests in %s\n", seed + at, failure, count, path);
        session_write(path, session, count);
        return failure;
    }
    return 0;
}

int main(int words_count, char **words)
{
    unsigned long sessions = 1000, seed = 1;
    bool is_right = words_count <= 4 && (words_count < 2 || read_number(words[1], 1, &sessions)) && (words_count < 3 || read_number(words[2], 0, &seed));
    bool is_asked = words_count == 2 && strcmp(words[1], "--help") == 0;
    if (!is_right || is_asked) {
        fprintf(is_asked ? stdout : stderr, "usage: %s [SESSIONS [SEED [FILE]]]\n  plays random requests, in one session or more; the first session that fails is shrunk, and stands in FILE (failure.txt)\n", words[0]);
        return is_asked ? 0 : 2;
    }
    has_called = mmap(NULL, sizeof *has_called, PROT_READ | PROT_WRITE, MAP_SHARED | MAP_ANONYMOUS, -1, 0);
    FILE *nothing = fopen("/dev/null", "w");
    if (has_called == MAP_FAILED || !nothing) {
        perror(words[0]);
        return 3;
    }
    int failure = play_all(sessions, seed, words_count > 3 ? words[3] : "failure.txt", fileno(nothing));
    if (failure)
        return failure;
    if (!*has_called) {
        fprintf(stderr, "no callback of a driver was called in %lu sessions: is it loaded, and attached? Play `load NAME` and `attach NAME 0 one 100` to see\n", sessions);
        return 1;
    }
    printf("%lu sessions from seed %lu on: all end with 0\n", sessions, seed);
    return 0;
}
