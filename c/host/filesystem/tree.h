/* What the file system here knows: names, the files that they stand for, and the streams of these.
 *
 * The manager sees a stream by its key, a serial number. A rename moves the name alone, so that all that the manager keeps with the key follows the file: contexts, handles, a mark of
 * deletion. */
#ifndef KZ_FILESYSTEM_TREE_H
#define KZ_FILESYSTEM_TREE_H

#include "host.h"

/* Names and files are found by a hash of their text: so many places there are. Letters count as one with those of the other case. */
enum { KZ_NAME_PLACES = 8192 };
static inline unsigned kz_name_place(PFLT_VOLUME volume, const char *text)
{
    uint32_t number = 2166136261U + volume->id;
    for (; *text; text++) {
        number = (number ^ (uint8_t)(*text >= 'a' && *text <= 'z' ? *text - 32 : *text)) * 16777619U;
        for (unsigned left = *text == '|' ? 4 : 0; left && text[1]; left--) /* a letter beyond ASCII, whose digits say its case too */
            text++;
    }
    return number % KZ_NAME_PLACES;
}

/* Bytes that are kept as they were given. */
typedef struct KzBytes {
    uint8_t *bytes;
    size_t length;
} KzBytes;

/* What a file has beside its streams. */
typedef struct KzBeside {
    KzBytes ea, security, reparse;
} KzBeside;

/* Bytes in memory (bytes.h), a page each, in the order of their numbers. */
typedef struct {
    uint64_t number;
    uint8_t *bytes;
} KzPage;
typedef struct {
    KzPage *all;
    size_t count, room;
} KzPages;

/* Bytes of a file, with their name and sharing. NTFS's SCB. */
typedef struct KzStream {
    struct KzStream *next;
    struct KzRecord *file;
    char *name;     /* as it was spelt; empty of the file's own bytes, and of a directory itself */
    char key[24];   /* the manager's path of it: a serial number, which no other one has in this run */
    bool exists;    /* else a create that is under way speaks of it */
    bool is_gone;   /* deleted or replaced while it was open: no client finds it any more */
    bool is_marked; /* it goes with its last handle, and the file stays */
    unsigned names; /* that lead to it */
    unsigned opens; /* handles whose cleanup isn't over */
    uint64_t size, allocation;
    uint64_t valid; /* up to where something was written: what lies from there to its end is zeros */
    struct KzCache *cache; /* NULL: nothing of it is cached */
    struct KzOplock *oplock; /* NULL: none was ever asked for */
    SECTION_OBJECT_POINTERS sections;
    SHARE_ACCESS share;
    struct KzHeldRange *locks; /* of bytes (ranges.h) */
    KzPages pages; /* of a volume in memory */
    int orphan;    /* a descriptor, and 1 more, of a folder's file whose name went to another one while it was open; else 0 */
} KzStream;

/* A file or a directory, whatever it is called. NTFS's FCB. */
typedef struct KzRecord {
    struct KzRecord *next, *before;
    PFLT_VOLUME volume;
    uint64_t born; /* of the first name that it had: its ID is made of it */
    uint64_t id;
    bool exists, is_directory;
    LONGLONG created, accessed, written, changed;
    LONGLONG usn;  /* of its last record in the journal */
    ULONG reasons; /* of changes since it was opened */
    ULONG attributes;
    KzBeside beside;
    KzBytes object_id;
    KzStream *streams;     /* the unnamed one first, and then in the order of their names */
    struct KzVersion *version; /* that a transaction changes (version.h); NULL if none does */
    struct KzName *marked; /* the name that goes with the last handle; NULL: the file is to stay */
    unsigned links;        /* names by which it is found */
    unsigned names;        /* all that are kept, with those of its streams */
    unsigned opens;        /* handles of any stream whose cleanup isn't over */
} KzRecord;

/* A name as a client says it. A handle points to the one by which it was opened: so a rename is seen by all its handles, and by those of no other link. */
typedef struct KzName {
    struct KzName *next, *before;
    struct KzName *same; /* the next one of the same place by its text */
    PFLT_VOLUME volume;
    char *text;
    KzRecord *file;
    KzStream *stream;
    struct KzName *base; /* of a name with a stream: that of the file alone; else NULL */
    bool is_gone; /* replaced or deleted while it was open: no client finds the file by it any more */
    bool is_to_move;
    uint8_t cached; /* formats in which the cache of names has it, a bit each */
    unsigned users;
} KzName;

/* Whether what it leads to is there, as far as is known. */
static inline bool kz_exists(const KzName *name)
{
    return name->file->exists && (!name->base || name->stream->exists);
}

static inline bool kz_is_directory(const KzName *name)
{
    return name->file->is_directory && !name->base;
}

#endif
