/* Binaries of drivers: their files are read, laid out beside one another, bound to the kit's calls, and made known to the host. */
#define _GNU_SOURCE
#include "image/image.h"

#include "image/absent.h"
#include "image/calls.h"
#include "core/memory.h"

#include <elf.h>
#include <errno.h>
#include <stdlib.h>
#include <sys/mman.h>

extern const Elf64_Ehdr __ehdr_start __attribute__((visibility("hidden")));

/* Where images lie: the same addresses in each run. The explorer, whose program is one of fixed addresses, keeps those of code in 32 bits. */
#define HIGH 0x180000000UL
#define LOW 0x40000000UL
enum { ARENA = 0x18000000, STEP = 1 << 16 };

static KzImage *images;
static uint8_t *next;

const KzImage *kz_image_at(uint64_t address)
{
    const KzImage *one = images;
    while (one && address - (uintptr_t)one->bytes.start >= one->bytes.size)
        one = one->next;
    return one;
}

void kz_each_image(void (*use)(const KzImage *image))
{
    for (const KzImage *one = images; one; one = one->next)
        use(one);
}

/* ---- Memory. */
static bool reserve(KzRefusal *why)
{
    if (next)
        return true;
    void *wanted = (void *)(__ehdr_start.e_type == ET_DYN ? HIGH : LOW);
    int flags = MAP_PRIVATE | MAP_ANONYMOUS | MAP_NORESERVE;
    void *arena = mmap(wanted, ARENA, PROT_NONE, flags | MAP_FIXED_NOREPLACE, -1, 0);
    if (arena == MAP_FAILED) /* a sanitizer is there */
        arena = mmap(NULL, ARENA, PROT_NONE, flags, -1, 0);
    if (arena == MAP_FAILED)
        return kz_refuse(why, "there is no room for it");
    next = arena;
    kz_binaries.start = (uintptr_t)arena;
    kz_binaries.size = ARENA;
    kz_binaries.stubs = (uintptr_t)__start_kz_stubs;
    kz_binaries.stubs_size = (uintptr_t)(__stop_kz_stubs - __start_kz_stubs);
    return true;
}

uint8_t *kz_take_arena(size_t size)
{
    uint8_t *taken = next;
    if ((uintptr_t)next + size > kz_binaries.start + ARENA || mprotect(next, size, PROT_READ | PROT_WRITE) != 0)
        return NULL;
    next += (size + STEP - 1) & ~(size_t)(STEP - 1);
    return taken;
}

static bool take_room(KzImage *image, KzRefusal *why)
{
    if (!reserve(why))
        return false;
    size_t size = image->headers.size;
    image->bytes = (KzBytes){kz_take_arena(size), size};
    return image->bytes.start || kz_refuse(why, "there is no room for its %zu bytes", size);
}

void kz_open_text(const KzImage *image)
{
    for (unsigned at = 0; at < image->headers.sections_count; at++)
        if (image->headers.sections[at].is_run)
            mprotect(image->bytes.start + image->headers.sections[at].at, image->headers.sections[at].size, PROT_READ | PROT_WRITE);
}

void kz_protect_section(const KzImage *image, const KzSection *section, bool is_there)
{
    int rights = (section->is_read || section->is_run ? PROT_READ : 0) | (section->is_written ? PROT_WRITE : 0) | (section->is_run ? PROT_EXEC : 0);
    mprotect(image->bytes.start + section->at, section->size, is_there ? rights : PROT_NONE);
}

void kz_protect_image(const KzImage *image)
{
    mprotect(image->bytes.start, image->bytes.size, PROT_NONE);
    mprotect(image->bytes.start, KZ_PAGE, PROT_READ);
    for (unsigned at = 0; at < image->headers.sections_count; at++)
        kz_protect_section(image, &image->headers.sections[at], true);
}

/* A driver is loaded: its variables are as they were laid out. */
static void open_again(const KzDriver *driver)
{
    KzImage *image = (KzImage *)(uintptr_t)kz_image_at((uintptr_t)driver->entry);
    if (image && image->is_entered) {
        image->is_entered = false;
        kz_protect_image(image);
    }
    for (unsigned at = 0; image && at < image->headers.sections_count; at++) {
        const KzSection *one = &image->headers.sections[at];
        if (one->is_written)
            memcpy(image->bytes.start + one->at, image->pristine + one->at, one->size);
    }
}

/* The variables of all images, a section each: those that are there. */
static bool find_data(unsigned at, char **start, char **end)
{
    for (const KzImage *image = images; image; image = image->next)
        for (unsigned one = 0; one < image->headers.sections_count; one++) {
            const KzSection *section = &image->headers.sections[one];
            if (!section->is_written || !kz_may_read(image, section) || at--)
                continue;
            *start = (char *)image->bytes.start + section->at;
            *end = *start + section->size;
            return true;
        }
    return false;
}

/* ---- What the loader of Windows does beside laying out and binding: the cookie of /GS, which a driver's own start refuses if nobody has set it. */
static void set_cookie(const KzImage *image)
{
    enum { COOKIE = 0x58 };
    const uint64_t usual = 0x00002b992ddfa232, value = 0x00005bd1e995a3c7;
    uint64_t address = 0, there = 0;
    KzBytes configuration = kz_directory(&image->headers, image->bytes, KZ_LOAD_CONFIGURATION);
    kz_copy(configuration, COOKIE, &address, sizeof address);
    uint64_t at = address - (uintptr_t)image->bytes.start;
    if (address && kz_copy(image->bytes, at, &there, sizeof there) && there == usual)
        memcpy(kz_bytes_at(image->bytes, at, sizeof value), &value, sizeof value);
}

static uint64_t find_import(void *given, const char *module, const char *name)
{
    KzImage *image = given;
    image->locks_pages |= strncmp(name, "MmLockPagable", 13) == 0 || strcmp(name, "MmResetDriverPaging") == 0;
    image->expands_stack |= strncmp(name, "KeExpandKernelStack", 19) == 0;
    const void *found = kz_find_export(name);
    if (!found) {
        const char *near = kz_is_known(name) ? NULL : kz_nearest_known(name);
        fprintf(stderr, "%s: %s of %s %s%s%s: a call of it is reported, and answers STATUS_NOT_SUPPORTED\n", image->path, name, module,
                kz_is_known(name) ? "isn't in this kit" : "is exported by no Windows that is known here", near ? "; the nearest is " : "", near ? near : "");
        found = kz_missing_call(name);
    }
    return (uintptr_t)found;
}

/* ---- Files. */
bool kz_read_file(const char *path, KzBytes *to, KzRefusal *why)
{
    enum { LARGEST = 256 << 20 };
    errno = 0;
    FILE *file = fopen(path, "rb");
    long size = file && fseek(file, 0, SEEK_END) == 0 ? ftell(file) : -1;
    *to = (KzBytes){size >= 0 && size <= LARGEST ? malloc((size_t)size + 1) : NULL, 0};
    if (to->start) {
        rewind(file);
        to->size = fread(to->start, 1, (size_t)size, file);
    }
    bool is_read = to->start && !ferror(file);
    if (!is_read)
        kz_refuse(why, "%s", errno ? strerror(errno) : "it is no file of at most 256 MB");
    if (file)
        fclose(file);
    return is_read;
}

static void name_driver(KzImage *image)
{
    const char *slash = strrchr(image->path, '/');
    char *name = kz_copy_of(slash ? slash + 1 : image->path), *end = strrchr(name, '.');
    if (end)
        *end = 0;
    image->driver = (KzDriver){name, (DRIVER_INITIALIZE *)(uintptr_t)(image->bytes.start + image->headers.entry)};
}

static bool make(KzImage *image, KzBytes file, KzRefusal *why)
{
    if (!kz_read_headers(file, &image->headers, why) || !take_room(image, why) || !kz_lay_out(&image->headers, file, image->bytes, (uintptr_t)image->bytes.start, why) ||
        !kz_bind(&image->headers, image->bytes, find_import, image, why))
        return false;
    set_cookie(image);
    image->pristine = kz_memory(image->bytes.size);
    memcpy(image->pristine, image->bytes.start, image->bytes.size);
    name_driver(image);
    kz_read_symbols(image);
    kz_rewrite_levels(image);
    kz_mark_lines(image);
    return true;
}

const KzImage *kz_load_image(const char *path, KzRefusal *why)
{
    KzBytes file;
    KzImage *image = kz_memory(sizeof *image);
    image->path = path;
    bool is_made = kz_read_file(path, &file, why) && make(image, file, why);
    free(file.start);
    if (!is_made) {
        free(image);
        return NULL;
    }
    image->next = images;
    images = image;
    kz_binaries.open = open_again;
    kz_binaries.data = find_data;
    kz_binaries.find_routine = kz_find_export;
    kz_binaries.watch = kz_watch_binaries;
    kz_watch_faults();
    kz_watch_absent();
    return image;
}
