/* Lines of sources, as Microsoft's compiler and clang leave them: each module has tables of its functions' lines, which name files by a table of their own (C13, of CodeView). Code that was put
 * in place of a call has the line of that call. */
#include "image/pdb.h"

#include <stdio.h>
#include <stdlib.h>
#include <string.h>

enum { BUILD_STREAM = 1, MODULES_STREAM = 3, LINES = 0xf2, FILES = 0xf4, NO_STREAM = 0xffff, HIDDEN = 0xf00000, HIDDEN_TOO = 0xfeefee };

/* ---- What this build is called, and where names are. */
typedef struct {
    uint32_t version, signature, age;
    KzBuild build;
    uint32_t names_size;
} BuildHead;

static uint32_t word_at(KzBytes bytes, uint64_t at)
{
    uint32_t word = 0;
    kz_copy(bytes, at, &word, sizeof word);
    return word;
}

/* The streams that have names are in a table of hashes: pairs of a name's place and a number, behind two lists of bits. */
static unsigned stream_named(KzBytes info, const char *name)
{
    BuildHead head;
    if (!kz_copy(info, 0, &head, sizeof head))
        return NO_STREAM;
    uint64_t names = sizeof head, at = names + head.names_size, count = word_at(info, at);
    at += 8;
    at += 4 + 4 * (uint64_t)word_at(info, at);
    at += 4 + 4 * (uint64_t)word_at(info, at);
    for (uint64_t pair = 0; pair < count && kz_bytes_at(info, at, 8); pair++, at += 8) {
        const char *text = kz_text_at(info, names + word_at(info, at), 64);
        if (text && strcmp(text, name) == 0)
            return word_at(info, at + 4);
    }
    return NO_STREAM;
}

/* ---- One module's lines. */
typedef struct {
    const KzHeaders *headers;
    KzBytes names, tables; /* of all files; and all tables of this module */
    uint64_t files, files_end;
    KzLines *to;
    size_t room;
} Module;

static bool add(Module *module, uint32_t at, uint32_t line, const char *file)
{
    KzLines *to = module->to;
    if (to->count == module->room) {
        size_t room = module->room ? 2 * module->room : 256;
        KzLine *larger = realloc(to->all, room * sizeof *larger);
        if (!larger)
            return false;
        to->all = larger;
        module->room = room;
    }
    to->all[to->count++] = (KzLine){at, line, file};
    return true;
}

static const char *file_at(const Module *module, uint32_t at)
{
    uint64_t place = module->files + at;
    return place + 4 <= module->files_end ? kz_text_at(module->names, 12 + (uint64_t)word_at(module->tables, place), 4096) : NULL;
}

typedef struct {
    uint32_t at;
    uint16_t section, flags;
    uint32_t size;
} LinesHead;

/* One after the other: a file, and where its lines begin. Columns stand behind the lines, and don't matter. */
static void read_lines(Module *module, uint64_t at, uint64_t end)
{
    LinesHead head;
    if (!kz_copy(module->tables, at, &head, sizeof head) || !head.section || head.section > module->headers->sections_count)
        return;
    uint32_t base = module->headers->sections[head.section - 1].at + head.at;
    for (at += sizeof head; at + 12 <= end;) {
        const char *file = file_at(module, word_at(module->tables, at));
        uint32_t count = word_at(module->tables, at + 4), size = word_at(module->tables, at + 8);
        for (uint32_t one = 0; file && one < count && at + 20 + 8 * (uint64_t)one <= end; one++) {
            uint32_t line = word_at(module->tables, at + 16 + 8 * (uint64_t)one) & 0xffffff;
            if (line != HIDDEN && line != HIDDEN_TOO && !add(module, base + word_at(module->tables, at + 12 + 8 * (uint64_t)one), line, file))
                return;
        }
        if (size < 12)
            break;
        at += size;
    }
    add(module, base + head.size, 0, NULL);
}

/* Each table has a kind and a size. */
static void read_tables(Module *module, uint32_t kind, void (*use)(Module *module, uint64_t at, uint64_t end))
{
    for (uint64_t at = 0; at + 8 <= module->tables.size;) {
        uint64_t size = word_at(module->tables, at + 4), end = at + 8 + size;
        if (end > module->tables.size)
            break;
        if (word_at(module->tables, at) == kind)
            use(module, at + 8, end);
        at = (end + 3) & ~(uint64_t)3;
    }
}

static void note_files(Module *module, uint64_t at, uint64_t end)
{
    module->files = at;
    module->files_end = end;
}

/* ---- All modules. */
typedef struct {
    uint32_t unused, contribution[7];
    uint16_t flags, stream;
    uint32_t symbols_size, old_size, tables_size;
    uint16_t files_count, fill;
    uint32_t more[3];
} ModuleHead;
_Static_assert(sizeof(ModuleHead) == 64, "layout");

static void read_module(KzBytes file, Module *module, const ModuleHead *head)
{
    if (head->stream == NO_STREAM || !head->tables_size)
        return;
    KzBytes stream = kz_pdb_stream(file, head->stream);
    uint8_t *start = kz_bytes_at(stream, (uint64_t)head->symbols_size + head->old_size, head->tables_size);
    module->tables = (KzBytes){start, start ? head->tables_size : 0};
    module->files = module->files_end = 0;
    read_tables(module, FILES, note_files);
    read_tables(module, LINES, read_lines);
    free(stream.start);
}

static void read_modules(KzBytes file, Module *module)
{
    KzBytes stream = kz_pdb_stream(file, MODULES_STREAM);
    uint64_t at = 64, end = at + word_at(stream, 24);
    ModuleHead head;
    while (at + sizeof head <= end && kz_copy(stream, at, &head, sizeof head)) {
        read_module(file, module, &head);
        at += sizeof head;
        for (int text = 0; text < 2; text++) {
            const char *name = kz_text_at(stream, at, 1 << 16);
            at = name ? at + strlen(name) + 1 : end;
        }
        at = (at + 3) & ~(uint64_t)3;
    }
    free(stream.start);
}

/* Where a function ends and another begins, that one counts. */
static int compare(const void *a, const void *b)
{
    const KzLine *one = a, *other = b;
    if (one->at != other->at)
        return one->at < other->at ? -1 : 1;
    return (one->line != 0) - (other->line != 0);
}

bool kz_read_lines(KzBytes file, const KzHeaders *headers, const KzBuild *build, KzLines *to, KzRefusal *why)
{
    BuildHead head;
    *to = (KzLines){0};
    KzBytes info = kz_pdb_stream(file, BUILD_STREAM);
    if (!kz_copy(info, 0, &head, sizeof head)) {
        free(info.start);
        return kz_refuse(why, "it is no .pdb that can be read");
    }
    bool is_same = memcmp(&head.build, build, sizeof *build) == 0;
    Module module = {.headers = headers, .names = kz_pdb_stream(file, stream_named(info, "/names")), .to = to};
    free(info.start);
    to->names = (char *)module.names.start;
    if (!is_same)
        return kz_refuse(why, "it is of another build");
    read_modules(file, &module);
    if (to->count)
        qsort(to->all, to->count, sizeof *to->all, compare);
    kz_read_variables(file, headers, to);
    return true;
}

const KzLine *kz_line_at(const KzLines *lines, uint32_t at)
{
    size_t from = 0, to = lines->count;
    while (from < to) {
        size_t middle = (from + to) / 2;
        if (lines->all[middle].at <= at)
            from = middle + 1;
        else
            to = middle;
    }
    return from && lines->all[from - 1].line ? &lines->all[from - 1] : NULL;
}

void kz_forget_lines(KzLines *lines)
{
    free(lines->all);
    free(lines->names);
    free(lines->variables);
    free(lines->symbols);
    *lines = (KzLines){0};
}
