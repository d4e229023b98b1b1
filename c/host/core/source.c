/* Lines of sources, by the debug information of the program: addr2line of the binutils is asked, once for each address, and only when a line is told. A crash asks too, in its
 * signal's handler: so nothing is called here that isn't safe there. */
#include "core/source.h"

#include <elf.h>
#include <fcntl.h>
#include <sys/wait.h>
#include <unistd.h>

extern const Elf64_Ehdr __ehdr_start __attribute__((visibility("hidden")));

enum { KNOWN = 256, LONGEST = 80, LONGEST_PATH = 400, CALLERS = 2 };

typedef struct {
    uintptr_t address;
    char line[LONGEST];           /* empty if there is none */
    char path[LONGEST_PATH];      /* the same with the file's whole path; empty if that isn't known */
    char outer[CALLERS][LONGEST]; /* which its code was put into */
} Known;

static Known known[KNOWN];

uintptr_t kz_in_file(const void *address)
{
    if (kz_is_binary(address))
        return (uintptr_t)address;
    return (uintptr_t)address - (__ehdr_start.e_type == ET_DYN ? (uintptr_t)&__ehdr_start : 0);
}

/* ---- The program that knows. */
static void put_number(char *room, uintptr_t number)
{
    int digits = 1;
    while (digits < 16 && number >> 4 * digits)
        digits++;
    room[digits] = 0;
    for (; digits > 0; number >>= 4)
        room[--digits] = "0123456789abcdef"[number & 15];
}

/* In a child: it becomes addr2line, or one like it, which writes to the pipe. */
static void become(const char *reader, const char *program, const char *address, int to)
{
    int silence = open("/dev/null", O_RDWR);
    dup2(silence, STDIN_FILENO);
    dup2(to, STDOUT_FILENO);
    dup2(silence, STDERR_FILENO);
    execl("/usr/bin/env", "env", reader, "-i", "-e", program, address, (char *)NULL);
    _exit(1);
}

static size_t read_all(int from, char *room, size_t size)
{
    size_t used = 0;
    ssize_t got = 1;
    while (got > 0 && used + 1 < size) {
        got = read(from, room + used, size - 1 - used);
        used += got > 0 ? (size_t)got : 0;
    }
    room[used] = 0;
    return used;
}

static size_t ask(const char *reader, const char *program, uintptr_t address, char *room, size_t size)
{
    char number[20]; /* on the stack: the explorer guards all other memory */
    int ends[2];
    room[0] = 0;
    if (pipe(ends) != 0)
        return 0;
    put_number(number, address);
    pid_t child = fork();
    if (child == 0)
        become(reader, program, number, ends[1]);
    close(ends[1]);
    size_t used = child > 0 ? read_all(ends[0], room, size) : 0;
    close(ends[0]);
    if (child > 0)
        waitpid(child, NULL, 0);
    return used;
}

/* ---- Lines. */
bool kz_is_left_out(const char *path)
{
    static const char *const folders[] = {"/c/include/", "/c/host/", "Windows Kits\\", "/x86_64-w64-mingw32/", "/mingw-w64/include/", "/lib/clang/"};
    for (size_t at = 0; at < sizeof folders / sizeof folders[0]; at++)
        if (strstr(path, folders[at]))
            return true;
    return path[0] == '?';
}

static void keep(char *room, size_t size, const char *text, size_t length)
{
    if (length < size)
        ((char *)memcpy(room, text, length))[length] = 0;
}

/* The next one that isn't left out, the innermost first, and with its path if one is asked for; what is after it. */
static char *take_line(char *all, char *line, size_t size, char *path)
{
    line[0] = 0;
    while (*all && !*line) {
        char *end = all + strcspn(all, "\n");
        end += *end == '\n';
        end[-1] = 0;
        const char *name = all + strlen(all);
        while (name > all && name[-1] != '/' && name[-1] != '\\')
            name--;
        size_t length = strcspn(name, " ");
        if (!kz_is_left_out(all) && length && length < size && name[length - 1] != '?') {
            keep(line, size, name, length);
            if (path)
                keep(path, LONGEST_PATH, all, (size_t)(name - all) + length);
        }
        all = end;
    }
    return all;
}

bool kz_ask_line(const char *reader, const char *program, uintptr_t address, char *line, size_t size)
{
    char all[4096];
    ask(reader, program, address, all, sizeof all);
    take_line(all, line, size, NULL);
    return line[0];
}

bool kz_ask_path(const char *program, uintptr_t address, char *path, size_t size)
{
    char all[4096];
    ask("addr2line", program, address, all, sizeof all);
    all[strcspn(all, "\n")] = 0;
    char *line = strrchr(all, ':');
    if (!line || all[0] == '?')
        return false;
    *line = 0;
    return (size_t)snprintf(path, size, "%s", all) < size;
}

static void find(uintptr_t address, Known *one)
{
    char program[512], all[4096], *rest = all;
    ssize_t length = readlink("/proc/self/exe", program, sizeof program - 1);
    program[length > 0 ? length : 0] = 0;
    ask("addr2line", program, address, all, sizeof all);
    rest = take_line(rest, one->line, LONGEST, one->path);
    for (unsigned outer = 0; outer < CALLERS; outer++)
        rest = take_line(rest, one->outer[outer], LONGEST, NULL);
}

/* Threads may look for the same at once: what is kept is whole before its address says so. */
static Known look_up(uintptr_t address)
{
    Known *kept = &known[(address >> 1) % KNOWN], one = {0};
    if (__atomic_load_n(&kept->address, __ATOMIC_ACQUIRE) == address)
        return *kept;
    if (!kz_is_binary((const void *)address) || !kz_binaries.find_line(address - 1, one.line, LONGEST))
        find(address - 1, &one);
    *kept = one;
    __atomic_store_n(&kept->address, address, __ATOMIC_RELEASE);
    return one;
}

bool kz_find_source(uintptr_t address, char *room, size_t size)
{
    Known one = look_up(address);
    snprintf(room, size, "%s", one.line);
    return one.line[0];
}

bool kz_find_path(uintptr_t address, char *room, size_t size)
{
    Known one = look_up(address);
    snprintf(room, size, "%s", one.path[0] ? one.path : one.line);
    return room[0];
}

/* ---- Who called it. */
typedef struct {
    char *room;
    size_t size, used;
    unsigned count;
} Callers;

static void add_caller(Callers *to, const char *line)
{
    if (!*line || to->count == CALLERS)
        return;
    int put = snprintf(to->room + to->used, to->size - to->used, ", from %s", line);
    to->used += (size_t)put < to->size - to->used ? (size_t)put : 0;
    to->count++;
}

size_t kz_read_callers(const char *text, char *room, size_t size)
{
    Callers to = {.room = room, .size = size};
    const char *at = text;
    unsigned long address;
    int length;
    room[0] = 0;
    for (; *at == KZ_FROM[0] && sscanf(at + 1, "%lx%n", &address, &length) == 1; at += 1 + length) {
        const Known one = look_up(address);
        if (at != text)
            add_caller(&to, one.line);
        for (unsigned outer = 0; outer < CALLERS; outer++)
            add_caller(&to, one.outer[outer]);
    }
    return (size_t)(at - text);
}

/* An address stands behind an @, with a space in front. */
void kz_readable(char *room, size_t size, const char *text)
{
    size_t used = 0;
    char line[LONGEST];
    while (*text && used + 1 < size) {
        unsigned long address;
        int length = 0;
        if (text[0] == ' ' && text[1] == '@' && sscanf(text + 2, "%lx%n", &address, &length) == 1 && address > 4096) {
            bool is_found = kz_find_source(address, line, sizeof line);
            int put = is_found ? snprintf(room + used, size - used, " %s", line) : snprintf(room + used, size - used, " 0x%lx", address);
            used += (size_t)put < size - used ? (size_t)put : size - used - 1;
            text += 2 + length;
        } else if (*text == KZ_FROM[0]) {
            text += kz_read_callers(text, room + used, size - used);
            used += strlen(room + used);
        } else if (*text == KZ_MARK[0]) {
            text++;
        } else {
            room[used++] = *text++;
        }
    }
    room[used] = 0;
}
