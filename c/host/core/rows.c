/* The lines and the functions of a program by its DWARF, as objdump and nm of the binutils say them. */
#include "core/coverage.h"

#include "core/source.h"

#include <stdio.h>
#include <stdlib.h>
#include <string.h>

enum { NAMES_OF_A_UNIT = 64, LONGEST_NAME = 256, LONGEST_ROW = 4096 };

/* The files of a unit, by their names in its rows: where their paths are kept, and 0 of those that are left out. */
typedef struct {
    char name[LONGEST_NAME];
    uint32_t path;
} File;

typedef struct {
    const char *program;
    uintptr_t from;
    KzWanted *takes;
    const void *given;
    File files[NAMES_OF_A_UNIT];
    size_t files_count;
} Reader;

static FILE *open_output(const char *format, const char *program)
{
    char command[LONGEST_ROW];
    if (strchr(program, '\'') || (size_t)snprintf(command, sizeof command, format, program) >= sizeof command)
        return NULL;
    return popen(command, "r");
}

/* addr2line knows the whole path of a row's file. If it says another file, which stands at that address too, the next row of this one is asked for. */
static uint32_t path_of(Reader *reader, const char *name, uintptr_t in_file)
{
    char path[LONGEST_ROW];
    for (size_t at = 0; at < reader->files_count; at++)
        if (strcmp(reader->files[at].name, name) == 0)
            return reader->files[at].path;
    if (reader->files_count == NAMES_OF_A_UNIT || strlen(name) >= LONGEST_NAME || !kz_ask_path(reader->program, in_file, path, sizeof path))
        return 0;
    const char *last = strrchr(path, '/');
    if (strcmp(last ? last + 1 : path, name) != 0)
        return 0;
    File *one = &reader->files[reader->files_count++];
    strcpy(one->name, name);
    return one->path = kz_is_left_out(path) ? 0 : kz_note_name(path);
}

/* `file.c   12   0x1234   1   x`: a line, where it begins, and whether a statement does. */
static void read_row(Reader *reader, char *row)
{
    char *address = strstr(row, " 0x"), *name_end, *number;
    unsigned long in_file = address ? strtoul(address, &number, 16) : 0;
    if (!address || !strchr(number, 'x'))
        return;
    *address = 0;
    size_t length = strlen(row);
    while (length && row[length - 1] == ' ')
        row[--length] = 0;
    for (name_end = row + length; name_end > row && name_end[-1] != ' ';)
        name_end--;
    unsigned line = (unsigned)strtoul(name_end, NULL, 10);
    while (name_end > row && name_end[-1] == ' ')
        *--name_end = 0;
    if (!line || !*row || !reader->takes(reader->given, in_file + reader->from))
        return;
    uint32_t path = path_of(reader, row, in_file);
    if (path)
        kz_add_mark(in_file + reader->from, path, line);
}

static void read_rows(Reader *reader)
{
    char row[LONGEST_ROW];
    FILE *from = open_output("objdump --dwarf=decodedline '%s' 2> /dev/null", reader->program);
    while (from && fgets(row, sizeof row, from)) {
        if (!strstr(row, " 0x"))
            reader->files_count = 0; /* another unit may have a file of the same name */
        else
            read_row(reader, row);
    }
    if (from)
        pclose(from);
}

/* A driver's entry has a name of its own in a program. Parts of functions are none, and neither is what the linker names. */
static const char *name_of(char *name)
{
    name[strcspn(name, "\n")] = 0;
    if (strncmp(name, "kz_entry_", 9) == 0)
        return "DriverEntry";
    return strchr(name, '.') || name[0] == '_' ? NULL : name;
}

static void read_functions(const Reader *reader)
{
    char row[LONGEST_ROW];
    FILE *from = open_output("nm -C --defined-only '%s' 2> /dev/null", reader->program);
    while (from && fgets(row, sizeof row, from)) {
        char *rest;
        uintptr_t at = strtoul(row, &rest, 16) + reader->from;
        bool is_code = rest > row && (rest[1] == 't' || rest[1] == 'T') && rest[2] == ' ';
        const char *name = is_code && reader->takes(reader->given, at) ? name_of(rest + 3) : NULL;
        if (name)
            kz_add_function(at, name);
    }
    if (from)
        pclose(from);
}

void kz_add_rows(const char *program, uintptr_t from, KzWanted *wanted, const void *given)
{
    Reader *reader = calloc(1, sizeof *reader);
    if (!reader)
        return;
    *reader = (Reader){.program = program, .from = from, .takes = wanted, .given = given};
    read_rows(reader);
    read_functions(reader);
    free(reader);
}
