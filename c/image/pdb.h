/* The lines of sources in a .pdb, and the names of variables: a file of streams, of which each module of the program has one. Whatever the bytes are, nothing outside of them is read. */
#ifndef KZ_IMAGE_PDB_H
#define KZ_IMAGE_PDB_H

#include "image/pe.h"

/* A line of a source begins at that place of the image; a line of 0 is where a function ends. */
typedef struct {
    uint32_t at, line;
    const char *file; /* the path as the compiler has it; of the lines' own memory */
} KzLine;

/* A variable of the driver's. */
typedef struct {
    uint32_t at;
    const char *name;
} KzVariable;

typedef struct {
    KzLine *all; /* in the order of their places */
    size_t count;
    char *names; /* of files */
    KzVariable *variables; /* in the order of their places */
    size_t variables_count;
    uint8_t *symbols; /* where their names are */
} KzLines;

/* Which build a .pdb, or an image, is of. */
typedef struct {
    uint8_t guid[16];
} KzBuild;

/* streams.c: a stream as a whole, which is the caller's to free; no bytes if there is none. */
KzBytes kz_pdb_stream(KzBytes file, unsigned number);
/* pdb.c: false, and why, if it isn't a .pdb, or is one of another build. */
bool kz_read_lines(KzBytes file, const KzHeaders *headers, const KzBuild *build, KzLines *to, KzRefusal *why);
/* The line at that place; NULL if none is known. */
const KzLine *kz_line_at(const KzLines *lines, uint32_t at);
/* variables.c: those in the stream of symbols. */
void kz_read_variables(KzBytes file, const KzHeaders *headers, KzLines *to);
/* The one that lies there, or before; NULL if none does. */
const KzVariable *kz_variable_at(const KzLines *lines, uint32_t at);
void kz_forget_lines(KzLines *lines);

#endif
