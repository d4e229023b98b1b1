/* Drivers that are binaries of Windows, above the host: where they lie, and what their code needs of the machine. */
#ifndef KZ_IMAGE_H
#define KZ_IMAGE_H

#include "host.h"
#include "image/pdb.h"
#include "image/pe.h"

typedef struct KzImage {
    struct KzImage *next;
    const char *path;
    KzHeaders headers;
    KzBytes bytes;    /* as it lies in memory */
    uint8_t *pristine; /* as it was laid out */
    KzDriver driver;
    bool is_entered; /* its DriverEntry has succeeded */
    bool locks_pages, expands_stack; /* it imports the calls for that: whether a page may be paged out, and how much stack there is, isn't known here */
    KzLines lines;   /* of its .pdb */
} KzImage;

/* image.c: NULL if the file can't be used, and why. What it imports and isn't here is written to the standard error output. */
const KzImage *kz_load_image(const char *path, KzRefusal *why);
/* Its bytes are the caller's to free. */
bool kz_read_file(const char *path, KzBytes *to, KzRefusal *why);
const KzImage *kz_image_at(uint64_t address); /* NULL: it is in none */
void kz_each_image(void (*use)(const KzImage *image));
/* So many bytes behind the images, to be written; NULL if there are none. */
uint8_t *kz_take_arena(size_t size);
/* Its code can be written, and isn't run; its pages have the rights of their sections. */
void kz_open_text(const KzImage *image);
void kz_protect_image(const KzImage *image);
void kz_protect_section(const KzImage *image, const KzSection *section, bool is_there);
/* level.c: its reads and writes of the IRQL come to the host without a trap, where there is room for it. */
void kz_rewrite_levels(const KzImage *image);
/* Whether they are. */
extern bool kz_watches_copies;
/* point.c: each access of theirs to memory that others may reach is told from now on. */
void kz_watch_binaries(KzTellAccess *to);
/* mark.c: its lines are counted, if lines are. */
void kz_mark_lines(const KzImage *image);
/* symbols.c: its .pdb, if there is one. */
void kz_read_symbols(KzImage *image);
/* line.c: a path without its folders. */
const char *kz_last_name(const char *path);
/* line.c: the line of its source before that address; else its function or its name, with how far that is behind it. */
bool kz_find_image_line(uintptr_t address, char *room, size_t size);
const char *kz_find_image_path(uintptr_t address, unsigned *line);
bool kz_find_image_variable(uintptr_t address, char *room, size_t size);
/* fault.c: what the processor refuses is carried out, or raised. */
void kz_watch_faults(void);

#endif
