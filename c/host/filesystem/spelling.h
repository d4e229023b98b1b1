/* A name of a file, as NTFS reads it: parts between separators, and of the last one the stream and its type. All that takes a name from a request, a program, a driver or a rename reads it here. */
#ifndef KZ_FILESYSTEM_SPELLING_H
#define KZ_FILESYSTEM_SPELLING_H

#include "host.h"
#include "core/create.h"

typedef struct {
    NTSTATUS status;   /* STATUS_SUCCESS, or why it is no name: the rest says nothing then */
    char text[KZ_PATH]; /* as the tree has it: with `/` between its parts and with no type */
    size_t last, file; /* where its last part begins, and where the file's name ends: a stream's is after that, with a colon in front */
    bool has_end;      /* a separator stands at its end: a directory opens by it, and nothing else */
    bool is_index;     /* its type is that of directories */
    bool is_data;      /* it means bytes, of a stream or of the file: no directory opens by it */
} KzSpelling;

/* Below a volume: either separator, none at its beginning, and empty for the root. As in the kit a second one at its beginning is nothing. */
NTSTATUS kz_read_spelling(const char *text, KzSpelling *read);
/* What the file system answers a create by the name alone, by what is there; STATUS_SUCCESS if the name has nothing against it. */
NTSTATUS kz_spelling_refuses(const KzFile *file, const KzCreate *create, bool is_there, bool is_directory);
/* By which the file object is opened. */
void kz_spell_file(KzFile *file, const char *path);

#endif
