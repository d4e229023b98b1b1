/* kz_serve: the drivers that are linked with it, behind the frames of docs/FRAMES.md: PROGRAM [--cached] [--guard] FOLDER SOCKET. One thread answers all connections.
 * Exit status: 0, or 5 where a driver's mistake was told, 1 for want of memory, 2 for wrong words, 3 where the folder or the socket isn't to be had. */
#define _GNU_SOURCE
#include "answer.h"

#include "core/coverage.h"
#include "core/piece.h"
#include "filesystem/journal.h"
#include "kzflt.h"

#include <errno.h>
#include <fcntl.h>
#include <poll.h>
#include <signal.h>
#include <sys/socket.h>
#include <sys/un.h>
#include <time.h>
#include <unistd.h>

extern const KzDriver kz_drivers[];
extern const size_t kz_drivers_count;

static Link links[LINKS];

/* A first SIGTERM is a Stop, a second one ends the connections too; SIGUSR1 asks for counts. They come while the server waits, and at no other time. */
static struct {
    volatile sig_atomic_t stops, counts;
    sigset_t usual; /* what may come while it waits */
} asked;

/* Besides those of connections: for the folder's files, of which one is open at a time, and for what a driver's test opens. */
enum { SPARE_DESCRIPTORS = 8, REST_MILLISECONDS = 20, LAZY_MILLISECONDS = 1000, JOURNAL_BYTES = 1 << 20 };

/* Whether there are descriptors for all connections: they are opened once, and closed again. */
static bool has_descriptors(int listener)
{
    int opened[LINKS + SPARE_DESCRIPTORS];
    size_t count = 0;
    while (count < LINKS + SPARE_DESCRIPTORS && (opened[count] = fcntl(listener, F_DUPFD_CLOEXEC, 0)) != -1)
        count++;
    int error = errno;
    bool is_enough = count == LINKS + SPARE_DESCRIPTORS;
    while (count > 0)
        close(opened[--count]);
    errno = error;
    return is_enough;
}

static int fault(const char *what)
{
    fprintf(stderr, "fault: %s: %s\n", what, strerror(errno));
    return 3;
}

/* -1: it can't be had. */
static int listen_at(const char *path)
{
    struct sockaddr_un address = {.sun_family = AF_UNIX};
    errno = ENAMETOOLONG;
    if (strlen(path) >= sizeof address.sun_path)
        return -1;
    strcpy(address.sun_path, path);
    int listener = socket(AF_UNIX, SOCK_STREAM | SOCK_CLOEXEC | SOCK_NONBLOCK, 0);
    if (listener != -1 && bind(listener, (struct sockaddr *)&address, sizeof address) == 0 && listen(listener, 128) == 0)
        return listener;
    return -1;
}

/* A client beyond the last place is let go at once. False: none can be had now. */
static bool accept_one(int listener)
{
    size_t at = 0;
    int client = accept4(listener, NULL, NULL, SOCK_CLOEXEC);
    if (client == -1)
        return errno == EAGAIN || errno == EINTR || errno == ECONNABORTED;
    while (at < LINKS && links[at].socket != -1)
        at++;
    if (at < LINKS)
        link_begin(&links[at], client);
    else
        close(client);
    return true;
}

typedef enum { NO_FRAME, A_FRAME, A_STOP } Answered;

/* The next frame of a link, where one is there whole and the link is idle. */
static Answered answer_one(Link *link)
{
    size_t length = 0;
    const uint8_t *body = link->socket != -1 && link_is_idle(link) ? link_frame(link, &length) : NULL;
    if (!body)
        return NO_FRAME;
    bool is_stop = answer_frame(link, body, length);
    link_drop_frame(link, length);
    link->is_faulted |= is_stop; /* nothing comes behind the reply to a Stop */
    answer_due_steps();
    return is_stop ? A_STOP : A_FRAME;
}

/* One frame of each link in turn. */
static Answered answer_round(void)
{
    Answered answered = NO_FRAME;
    for (size_t at = 0; at < LINKS; at++) {
        Answered one = answer_one(&links[at]);
        answered = one > answered ? one : answered;
    }
    return answered;
}

/* All frames that came, until each link waits: an answer may have let others go on. True: a Stop was among them. */
static bool answer_all(void)
{
    bool is_stop = false;
    Answered answered;
    do {
        answered = answer_round();
        is_stop |= answered == A_STOP;
    } while (answered != NO_FRAME);
    return is_stop;
}

/* Its client is gone while it waits, or nothing is left to be answered or sent. */
static bool is_over(const Link *link, short events)
{
    if (link->is_waiting || link->is_step_due)
        return (events & (POLLHUP | POLLERR)) != 0;
    return (link->is_ended || link->is_faulted) && link->out_length == 0;
}

static void exchange(Link *link, short events)
{
    if (link->out_length > 0 && (events & (POLLOUT | POLLERR)))
        link_send(link);
    if (link_is_idle(link) && !link->is_ended && (events & (POLLIN | POLLHUP | POLLERR)))
        link_receive(link);
}

static void end_if_over(Link *link, short events)
{
    if (link->socket == -1 || !is_over(link, events))
        return;
    link_end(link);
    answer_end(link);
}

static short wanted(const Link *link)
{
    if (link->out_length > 0)
        return POLLOUT;
    return link_is_idle(link) && !link->is_ended ? POLLIN : 0;
}

/* How many links there are; what each waits for. */
static size_t watch(struct pollfd *places)
{
    size_t count = 0;
    for (size_t at = 0; at < LINKS; at++) {
        places[at] = (struct pollfd){links[at].socket, links[at].socket == -1 ? 0 : wanted(&links[at]), 0};
        count += links[at].socket != -1;
    }
    return count;
}

/* Up to the last link: poll refuses more places than there may be descriptors. */
static size_t used(void)
{
    size_t count = LINKS;
    while (count > 0 && links[count - 1].socket == -1)
        count--;
    return count;
}

static bool serve_links(const struct pollfd *places)
{
    for (size_t at = 0; at < LINKS; at++)
        if (places[at].revents)
            exchange(&links[at], places[at].revents);
    bool is_stop = answer_all();
    for (size_t at = 0; at < LINKS; at++)
        end_if_over(&links[at], places[at].revents);
    return is_stop;
}

static long long now(void)
{
    struct timespec time;
    clock_gettime(CLOCK_MONOTONIC, &time);
    return time.tv_sec * 1000LL + time.tv_nsec / 1000000;
}

/* The lazy writer comes each second. */
static void write_lazily(void)
{
    static long long last;
    if (now() - last < LAZY_MILLISECONDS)
        return;
    last = now();
    answer_lazily();
}

static void take_signal(int signal)
{
    if (signal == SIGTERM)
        asked.stops++;
    else
        asked.counts++;
}

static void take_signals(void)
{
    sigset_t ours;
    struct sigaction taken = {.sa_handler = take_signal};
    sigemptyset(&ours);
    sigaddset(&ours, SIGTERM);
    sigaddset(&ours, SIGUSR1);
    sigprocmask(SIG_BLOCK, &ours, &asked.usual);
    sigdelset(&asked.usual, SIGTERM);
    sigdelset(&asked.usual, SIGUSR1);
    sigaction(SIGTERM, &taken, NULL);
    sigaction(SIGUSR1, &taken, NULL);
}

/* Waits for something on the first so many places, at most so long: whether there is anything. */
static bool wait_for(struct pollfd *places, size_t count, int milliseconds)
{
    struct timespec most = {milliseconds / 1000, milliseconds % 1000 * 1000000L};
    bool is_there = ppoll(places, count, milliseconds < 0 ? NULL : &most, &asked.usual) != -1;
    if (asked.counts > 0)
        answer_tell_counts();
    asked.counts = 0;
    return is_there;
}

static void end_all(void)
{
    for (size_t at = 0; at < LINKS; at++)
        if (links[at].socket != -1) {
            link_end(&links[at]);
            answer_end(&links[at]);
        }
}

/* Until a Stop was answered and the last client is gone. Where no connection can be had, the listener rests for a moment, since it stays readable. */
static void serve(int listener, bool is_cached)
{
    bool is_stopping = false, is_resting = false;
    struct pollfd places[1 + LINKS];
    while (watch(places + 1) > 0 || !is_stopping) {
        places[0] = (struct pollfd){is_stopping || is_resting ? -1 : listener, POLLIN, 0};
        if (is_cached)
            write_lazily();
        bool is_there = wait_for(places, 1 + used(), is_resting ? REST_MILLISECONDS : is_cached ? LAZY_MILLISECONDS : -1);
        is_stopping |= asked.stops > 0;
        if (asked.stops > 1)
            end_all();
        if (!is_there)
            continue;
        is_stopping |= serve_links(places + 1);
        is_resting = !is_stopping && places[0].revents && !accept_one(listener);
    }
}

static int tell_usage(const char *program, FILE *to)
{
    fprintf(to,
            "usage: %s [--cached] [--guard] FOLDER SOCKET\n"
            "  serves FOLDER through its drivers to those who connect to SOCKET, until one asks it to stop\n"
            "  --cached: reads and writes go by the files' pages\n"
            "  --guard: a driver's memory has pages of its own, so that a touch past its end, or after it was freed, is told at its line\n",
            program);
    return to == stdout ? 0 : 2;
}

/* The words in front of the folder: how many they are. */
static int read_words(char **words, bool *is_cached, bool *has_guards)
{
    int at = 1;
    for (; words[at]; at++)
        if (strcmp(words[at], "--cached") == 0)
            *is_cached = true;
        else if (strcmp(words[at], "--guard") == 0)
            *has_guards = true;
        else
            break;
    return at - 1;
}

int main(int count, char **words)
{
    bool is_cached = false, has_guards = false;
    const char *program = words[0];
    if (count == 2 && strcmp(words[1], "--help") == 0)
        return tell_usage(program, stdout);
    words += read_words(words, &is_cached, &has_guards);
    if (!words[1] || !words[2] || words[3])
        return tell_usage(program, stderr);
    kz_count_lines();
    for (size_t at = 0; at < LINKS; at++)
        links[at].socket = -1;
    int error = kz_use_folder(words[1]);
    errno = error;
    if (error != 0)
        return fault(words[1]);
    int listener = listen_at(words[2]);
    if (listener == -1)
        return fault(words[2]);
    if (!has_descriptors(listener))
        return fault("descriptors for all connections");
    take_signals();
    signal(SIGXFSZ, SIG_IGN); /* a file that may not get longer is the device's failure */
    if (kz_open(kz_drivers, kz_drivers_count) != 0)
        return 1;
    if (!has_guards)
        kz_guard_none();
    kz_bound_journal(JOURNAL_BYTES);
    kz_is_quiet = 1;
    setvbuf(stdout, NULL, _IOLBF, 0);
    if (is_cached)
        kz_request("volume 0 cached");
    answer_begin(links, LINKS);
    puts("ready");
    serve(listener, is_cached);
    close(listener);
    int status = kz_close();
    KzCounts counts = kz_counts();
    printf("born %llu cleaned %llu leaks %llu\n", (unsigned long long)counts.born, (unsigned long long)counts.cleaned, (unsigned long long)counts.leaked);
    return status;
}
