/* A binary of Windows as a file: its headers are checked, its sections are laid out, moved to where they lie, and bound to what they import. Nothing here knows of the host, and whatever the
 * bytes are, nothing outside of them is read or written. */
#ifndef KZ_PE_H
#define KZ_PE_H

#include <ntimage.h>

#include <stdbool.h>
#include <stddef.h>
#include <stdint.h>

enum { KZ_PAGE = 4096, KZ_SECTIONS = 96 };
/* Directories of the optional header that scanners don't read. */
enum { KZ_EXCEPTIONS = 3, KZ_RELOCATIONS = 5, KZ_THREAD_LOCAL = 9, KZ_LOAD_CONFIGURATION = 10, KZ_DELAYED_IMPORTS = 13, KZ_MANAGED = 14 };

/* Why a file can't be used, in a sentence. */
typedef struct {
    char text[320];
} KzRefusal;
/* Answers false. */
bool kz_refuse(KzRefusal *why, const char *format, ...) __attribute__((format(printf, 2, 3)));

/* Bytes that may be read, of a file or of an image. */
typedef struct {
    uint8_t *start;
    size_t size;
} KzBytes;
/* Those from there on; NULL unless all of them are there. They lie where they like: `kz_copy` takes them. */
uint8_t *kz_bytes_at(KzBytes bytes, uint64_t at, uint64_t size);
bool kz_copy(KzBytes bytes, uint64_t at, void *to, size_t size);
/* A text that ends there, within so many bytes; NULL if there is none. */
const char *kz_text_at(KzBytes bytes, uint64_t at, size_t most);

typedef struct {
    char name[9];
    uint32_t at, size, raw, raw_size; /* in the image, and in the file */
    bool is_written, is_run, is_read, is_discarded;
} KzSection;

typedef struct {
    uint64_t linked; /* the address that it was linked for */
    uint32_t size;   /* of the image, in whole pages */
    uint32_t entry, headers;
    bool is_fixed; /* it has no relocations */
    IMAGE_DATA_DIRECTORY directories[IMAGE_NUMBEROF_DIRECTORY_ENTRIES];
    KzSection sections[KZ_SECTIONS];
    unsigned sections_count;
} KzHeaders;

/* headers.c: a file that has them is a driver for x64 that can be laid out. */
bool kz_read_headers(KzBytes file, KzHeaders *to, KzRefusal *why);
/* A directory's bytes in the image; none if it has none, or lies outside. */
KzBytes kz_directory(const KzHeaders *headers, KzBytes image, unsigned which);
const KzSection *kz_section_at(const KzHeaders *headers, uint32_t at);
/* layout.c: the image, in zeroed memory of its size, as if it lay at that address. */
bool kz_lay_out(const KzHeaders *headers, KzBytes file, KzBytes image, uint64_t address, KzRefusal *why);
/* imports.c: `find` answers where an import lies. */
typedef uint64_t KzFindImport(void *given, const char *module, const char *name);
bool kz_bind(const KzHeaders *headers, KzBytes image, KzFindImport *find, void *given, KzRefusal *why);
/* exports.c: the name that the image exports for that address in it; NULL if there is none. */
const char *kz_exported_name(const KzHeaders *headers, KzBytes image, uint32_t at);

#endif
