/* Lines of sources, and names of variables. */
#include "explore.h"
#include "core/source.h"

#include <stdlib.h>
#include <unistd.h>

/* ---- What a line says. The debug information names its file. */
enum { PLACES = 1024 };

typedef struct {
    unsigned long address;
    char path[512], text[160];
    unsigned line;
} Place;

static Place *places;

static void read_text(Place *one)
{
    char line[1024];
    FILE *file = fopen(one->path, "r");
    for (unsigned at = 1; file && fgets(line, sizeof line, file); at++)
        if (at == one->line) {
            char *text = line + strspn(line, " \t");
            text[strcspn(text, "\r\n")] = 0;
            snprintf(one->text, sizeof one->text, "%s", text);
            break;
        }
    if (file)
        fclose(file);
}

/* The innermost line that is neither in the kit's headers nor in the host. */
static void find_in_program(Place *one)
{
    char command[128], line[1024];
    snprintf(command, sizeof command, "addr2line -i -e /proc/%d/exe %lx 2>/dev/null", (int)getpid(), one->address - 1);
    FILE *from = popen(command, "r");
    while (from && fgets(line, sizeof line, from)) {
        char *colon = strrchr(line, ':');
        if (!colon || one->path[0] || strstr(line, "/c/include/") || strstr(line, "/c/host/") || line[0] == '?')
            continue;
        *colon = 0;
        one->line = (unsigned)strtoul(colon + 1, NULL, 10);
        snprintf(one->path, sizeof one->path, "%.500s", line);
    }
    if (from)
        pclose(from);
}

static void find(Place *one)
{
    bool is_binary = kz_is_binary((const void *)one->address) && kz_binaries.find_path;
    const char *path = is_binary ? kz_binaries.find_path(one->address - 1, &one->line) : NULL;
    if (path)
        snprintf(one->path, sizeof one->path, "%s", path);
    else if (!is_binary)
        find_in_program(one);
    if (one->path[0])
        read_text(one);
}

static const Place *place_of(unsigned long address)
{
    if (!places)
        places = ex_map(PLACES * sizeof *places);
    Place *one = &places[address % PLACES];
    if (one->address != address) {
        memset(one, 0, sizeof *one);
        one->address = address;
        find(one);
    }
    return one;
}

const char *ex_source_text(unsigned long address)
{
    return place_of(address)->text;
}

/* ---- Variables of the program, as its symbols name them. */
typedef struct {
    unsigned long address, size;
    char name[64];
} Symbol;

static struct {
    Symbol *all;
    size_t count;
} symbols;

static void read_symbols(void)
{
    char command[96], line[512];
    enum { MOST = 1 << 15 };
    symbols.all = ex_map(MOST * sizeof *symbols.all);
    snprintf(command, sizeof command, "nm -S --defined-only /proc/%d/exe 2>/dev/null", (int)getpid());
    FILE *from = popen(command, "r");
    while (from && symbols.count < MOST && fgets(line, sizeof line, from)) {
        Symbol *one = &symbols.all[symbols.count];
        char kind;
        if (sscanf(line, "%lx %lx %c %63s", &one->address, &one->size, &kind, one->name) == 4 && strchr("bBdDrR", kind))
            symbols.count++;
    }
    if (from)
        pclose(from);
}

static void put_variable(FILE *to, unsigned long address)
{
    char name[96];
    if (kz_is_binary((const void *)address) && kz_binaries.find_variable && kz_binaries.find_variable(address, name, sizeof name)) {
        fputs(name, to);
        return;
    }
    if (!symbols.all)
        read_symbols();
    for (size_t at = 0; at < symbols.count; at++) {
        const Symbol *one = &symbols.all[at];
        if (address < one->address || address >= one->address + one->size)
            continue;
        fprintf(to, address == one->address ? "%s" : "%s+%lu", one->name, address - one->address);
        return;
    }
    fprintf(to, "0x%lx", address);
}

/* ---- */
static void put_place(FILE *to, unsigned long address, bool with_text)
{
    char line[100];
    if (!kz_find_source(address, line, sizeof line)) {
        fprintf(to, "%lx", address);
        return;
    }
    fputs(line, to);
    if (with_text && *ex_source_text(address))
        fprintf(to, "   %s", ex_source_text(address));
}

/* @1234 is a place of the code, and &1234 between marks a variable. */
static void put(FILE *to, const char *text, bool with_text)
{
    while (*text) {
        size_t length = strcspn(text, "@" EX_VARIABLE KZ_FROM);
        bool is_variable = text[length] == EX_VARIABLE[0];
        unsigned long address;
        char callers[200];
        int used = 0;
        fwrite(text, 1, length, to);
        text += length;
        if (!*text)
            return;
        if (*text == KZ_FROM[0]) {
            text += kz_read_callers(text, callers, sizeof callers);
            fputs(callers, to);
        } else if (sscanf(text + 1, "%lx%n", &address, &used) == 1 && address > 4096) {
            if (is_variable)
                put_variable(to, address);
            else
                put_place(to, address, with_text);
            text += 1 + used;
        } else {
            putc(*text++, to);
        }
    }
}

void ex_put_sources(FILE *to, const char *text)
{
    put(to, text, false);
}

void ex_put_lines(FILE *to, const char *text)
{
    put(to, text, true);
}
