/* Which lines of the drivers ran. KAZDRIN_COVERAGE names a file of lcov: then an int 3 stands where each line begins, until the first thread comes there, and the file is written once the program and all that it
 * forked have ended, whatever ended them. What the file says already is added to, so that runs add up. */
#ifndef KZ_CORE_COVERAGE_H
#define KZ_CORE_COVERAGE_H

#include <stdbool.h>
#include <stddef.h>
#include <stdint.h>
#include <sys/types.h>

/* A line begins at that address. It is a driver's, and shared with all that is forked. */
typedef struct {
    uintptr_t at;
    uint32_t line, path;
    uint8_t was;
    _Atomic uint8_t is_hit;
} KzMark;

typedef struct {
    uintptr_t at;
    uint32_t name;
} KzMarkedFunction;

enum { KZ_MARKS = 1 << 17, KZ_FUNCTIONS = 1 << 13, KZ_MARKED_NAMES = 1 << 20 };
typedef struct {
    pid_t started; /* the process that goes on */
    size_t marks_count, functions_count, names_used;
    KzMark marks[KZ_MARKS];
    KzMarkedFunction functions[KZ_FUNCTIONS];
    char names[KZ_MARKED_NAMES]; /* paths and functions, each with its zero */
} KzCoverage;

/* NULL if no lines are counted. */
extern KzCoverage *kz_coverage;

/* Called first of all by a program. It returns in the process that goes on; the one that was started waits for that, and writes the file. */
void kz_count_lines(void);

/* Where a text is kept. */
uint32_t kz_note_name(const char *text);
void kz_add_mark(uintptr_t at, uint32_t path, unsigned line);
void kz_add_function(uintptr_t at, const char *name);
KzMark *kz_mark_at(uintptr_t at); /* the first of its address; NULL if there is none */
/* What was added is put in its place: what stands there now comes back as it is passed. */
void kz_put_marks(size_t from);
/* A line ran whose mark is another one's by now. */
void kz_hit_mark(uintptr_t at);
/* In a handler of SIGTRAP: whether it was a mark. The thread goes on at its line. */
bool kz_pass_mark(void *context);

/* rows.c: the lines and functions of a program, or of a driver, with DWARF: their addresses there and here differ by `from`. Those are left out that aren't wanted. */
typedef bool KzWanted(const void *given, uintptr_t at);
void kz_add_rows(const char *program, uintptr_t from, KzWanted *wanted, const void *given);
/* lcov.c: what ran, added to what the file says; and in a line for each source to the standard error output. False if it can't be written. */
bool kz_write_coverage(const char *path);

#endif
