/* The names of a driver's variables, from the stream in which a .pdb has the symbols that are no module's own. */
#include "image/pdb.h"

#include <stdlib.h>
#include <string.h>

enum { MODULES_STREAM = 3, SYMBOLS_STREAM_AT = 20, OF_ONE_FILE = 0x110c, OF_ALL = 0x110d };

typedef struct {
    uint16_t length, kind; /* the length is that of what stands behind it */
    uint32_t type, at;
    uint16_t section;
} __attribute__((packed)) Symbol;

static bool add(KzLines *to, size_t *room, KzVariable one)
{
    if (to->variables_count == *room) {
        *room = *room ? 2 * *room : 64;
        KzVariable *larger = realloc(to->variables, *room * sizeof *larger);
        if (!larger)
            return false;
        to->variables = larger;
    }
    to->variables[to->variables_count++] = one;
    return true;
}

static int compare(const void *a, const void *b)
{
    const KzVariable *one = a, *other = b;
    return one->at < other->at ? -1 : one->at > other->at;
}

void kz_read_variables(KzBytes file, const KzHeaders *headers, KzLines *to)
{
    uint16_t number = 0;
    size_t room = 0;
    Symbol one;
    KzBytes modules = kz_pdb_stream(file, MODULES_STREAM);
    KzBytes symbols = kz_copy(modules, SYMBOLS_STREAM_AT, &number, sizeof number) ? kz_pdb_stream(file, number) : (KzBytes){NULL, 0};
    free(modules.start);
    to->symbols = symbols.start;
    for (uint64_t at = 0; kz_copy(symbols, at, &one, sizeof one) && one.length >= 2; at += 2 + (uint64_t)one.length) {
        const char *name = kz_text_at(symbols, at + sizeof one, 256);
        bool is_variable = (one.kind == OF_ONE_FILE || one.kind == OF_ALL) && one.section && one.section <= headers->sections_count;
        if (is_variable && name && !add(to, &room, (KzVariable){headers->sections[one.section - 1].at + one.at, name}))
            break;
    }
    if (to->variables_count)
        qsort(to->variables, to->variables_count, sizeof *to->variables, compare);
}

const KzVariable *kz_variable_at(const KzLines *lines, uint32_t at)
{
    size_t from = 0, to = lines->variables_count;
    while (from < to) {
        size_t middle = (from + to) / 2;
        if (lines->variables[middle].at <= at)
            from = middle + 1;
        else
            to = middle;
    }
    return from ? &lines->variables[from - 1] : NULL;
}
