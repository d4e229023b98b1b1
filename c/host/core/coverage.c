/* Marks: an int 3 where each line of a driver begins. The process that was started waits, with all that is known in memory that it shares, and writes it at the end: so neither a crash nor `_exit` loses anything. */
#define _GNU_SOURCE
#include "core/coverage.h"

#include "core/frame.h"
#include "core/source.h"

#include <fcntl.h>
#include <signal.h>
#include <stdlib.h>
#include <sys/mman.h>
#include <sys/wait.h>
#include <ucontext.h>
#include <unistd.h>

enum { INT3 = 0xcc };

/* Of a program that was built to count them: then its file stands next to it. */
extern const int kz_counts_lines __attribute__((weak));
KzCoverage *kz_coverage;

uint32_t kz_note_name(const char *text)
{
    size_t length = strlen(text) + 1, at = kz_coverage->names_used;
    if (at + length > sizeof kz_coverage->names)
        return 0;
    memcpy(kz_coverage->names + at, text, length);
    kz_coverage->names_used += length;
    return (uint32_t)at;
}

void kz_add_mark(uintptr_t at, uint32_t path, unsigned line)
{
    if (kz_coverage->marks_count < KZ_MARKS)
        kz_coverage->marks[kz_coverage->marks_count++] = (KzMark){.at = at, .line = line, .path = path};
}

void kz_add_function(uintptr_t at, const char *name)
{
    if (kz_coverage->functions_count < KZ_FUNCTIONS)
        kz_coverage->functions[kz_coverage->functions_count++] = (KzMarkedFunction){at, kz_note_name(name)};
}

static int compare(const void *a, const void *b)
{
    const KzMark *one = a, *other = b;
    return one->at != other->at ? (one->at < other->at ? -1 : 1) : one->line < other->line ? -1 : one->line > other->line;
}

KzMark *kz_mark_at(uintptr_t at)
{
    size_t from = 0, to = kz_coverage ? kz_coverage->marks_count : 0;
    while (from < to) {
        size_t middle = (from + to) / 2;
        if (kz_coverage->marks[middle].at < at)
            from = middle + 1;
        else
            to = middle;
    }
    return kz_coverage && from < kz_coverage->marks_count && kz_coverage->marks[from].at == at ? &kz_coverage->marks[from] : NULL;
}

/* Code is written as a debugger does it: its pages keep their rights, and other threads may run there meanwhile. */
static void put_byte(uintptr_t at, uint8_t byte)
{
    int memory = open("/proc/self/mem", O_WRONLY | O_CLOEXEC);
    if (memory < 0 || pwrite(memory, &byte, 1, (off_t)at) != 1)
        abort();
    close(memory);
}

void kz_put_marks(size_t from)
{
    KzMark *marks = kz_coverage->marks;
    for (size_t at = from; at < kz_coverage->marks_count; at++)
        marks[at].was = *(const uint8_t *)marks[at].at;
    for (size_t at = from; at < kz_coverage->marks_count; at++)
        put_byte(marks[at].at, INT3);
    qsort(marks, kz_coverage->marks_count, sizeof *marks, compare);
}

void kz_hit_mark(uintptr_t at)
{
    const KzMark *end = kz_coverage ? kz_coverage->marks + kz_coverage->marks_count : NULL;
    for (KzMark *mark = kz_mark_at(at); mark && mark < end && mark->at == at; mark++)
        mark->is_hit = 1;
}

bool kz_pass_mark(void *context)
{
#ifdef __x86_64__
    greg_t *rip = &((ucontext_t *)context)->uc_mcontext.gregs[REG_RIP];
    uintptr_t at = (uintptr_t)*rip - 1;
    const KzMark *mark = kz_mark_at(at);
    if (!mark || mark->was == INT3)
        return false;
    put_byte(at, mark->was);
    kz_hit_mark(at);
    *rip = (greg_t)at;
    return true;
#else
    (void)context;
    return false;
#endif
}

/* The explorer and c/image have handlers of their own, which ask first whether it is a mark. */
static void on_trap(int signal, siginfo_t *information, void *context)
{
    (void)information;
    if (kz_pass_mark(context))
        return;
    sigaction(signal, &(struct sigaction){.sa_handler = SIG_DFL}, NULL);
    raise(signal);
}

/* ---- Who waits. */
static void hand_on(int signal)
{
    kill(kz_coverage->started, signal);
}

static void wait_and_write(const char *path, int from)
{
    static const int handed_on[] = {SIGTERM, SIGHUP, SIGINT, SIGQUIT, SIGUSR1};
    char byte;
    int status = 0;
    for (size_t at = 0; at < sizeof handed_on / sizeof handed_on[0]; at++)
        signal(handed_on[at], hand_on);
    while (waitpid(kz_coverage->started, &status, 0) < 0)
        ;
    while (read(from, &byte, 1) < 0) /* until what it forked has ended too */
        ;
    bool is_written = kz_write_coverage(path);
    if (WIFSIGNALED(status)) {
        signal(WTERMSIG(status), SIG_DFL);
        raise(WTERMSIG(status));
    }
    _exit(is_written || WEXITSTATUS(status) ? WEXITSTATUS(status) : 3);
}

static bool is_drivers(const void *given, uintptr_t at)
{
    (void)given;
    return kz_is_drivers_code((const void *)at);
}

/* In the program: the lines of the drivers that are linked with it. */
static void mark_own(const char *program)
{
#ifdef __x86_64__
    kz_add_rows(program, (uintptr_t)&kz_coverage - kz_in_file(&kz_coverage), is_drivers, NULL);
    kz_put_marks(0);
#else
    (void)program;
#endif
}

/* The file to be written, and the program's own path; NULL if nothing is counted. */
static const char *find_file(char *program, size_t size, char *own, size_t own_size)
{
    const char *named = getenv("KAZDRIN_COVERAGE");
    ssize_t length = readlink("/proc/self/exe", program, size - 1);
    program[length > 0 ? length : 0] = 0;
    snprintf(own, own_size, "%s.info", program);
    unsetenv("KAZDRIN_COVERAGE"); /* what the program starts isn't counted again */
    if (kz_coverage || (named && !*named))
        return NULL;
    if (named)
        snprintf(own, own_size, "%s", named);
    return named || &kz_counts_lines ? own : NULL;
}

void kz_count_lines(void)
{
    char program[512], own[4096];
    const char *path = find_file(program, sizeof program, own, sizeof own);
    int ends[2];
    if (!path || pipe(ends) != 0)
        return;
    kz_coverage = mmap(NULL, sizeof *kz_coverage, PROT_READ | PROT_WRITE, MAP_SHARED | MAP_ANONYMOUS | MAP_NORESERVE, -1, 0);
    if (kz_coverage == MAP_FAILED) {
        kz_coverage = NULL;
        return;
    }
    kz_coverage->names_used = 1;
    pid_t goes_on = fork();
    if (goes_on > 0) {
        kz_coverage->started = goes_on;
        close(ends[1]);
        wait_and_write(path, ends[0]);
    }
    close(ends[0]);
    sigaction(SIGTRAP, &(struct sigaction){.sa_sigaction = on_trap, .sa_flags = SA_SIGINFO | SA_ONSTACK | SA_NODEFER}, NULL);
    mark_own(program);
}
