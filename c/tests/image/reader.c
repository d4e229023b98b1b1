/* reader SECONDS [DRIVER.sys DRIVER.pdb]: changed copies of a small binary are read, laid out and bound, or changed copies of that .pdb are read, each in memory of exactly its size: under the
 * address sanitizer nothing outside of them may be touched. What comes of each is a sentence, or an image, or lines. Of random bytes instructions are decoded. */
#include "image/instruction.h"
#include "image/pdb.h"
#include "image/pe.h"

#include <stdio.h>
#include <stdlib.h>
#include <string.h>
#include <time.h>

enum { HEADERS = 0x400, FILE_SIZE = 0xa00, PE = 0x80, OPTIONAL_AT = PE + 24, SECTIONS = OPTIONAL_AT + 240 };

static uint64_t state = 88172645463325252u;

static uint32_t draw(uint32_t below)
{
    state ^= state << 13;
    state ^= state >> 7;
    state ^= state << 17;
    return (uint32_t)(state >> 16) % below;
}

static void put(uint8_t *file, size_t at, uint64_t value, size_t size)
{
    memcpy(file + at, &value, size);
}

static void put_section(uint8_t *file, unsigned number, const char *name, uint32_t at, uint32_t raw, uint32_t rights)
{
    size_t to = SECTIONS + 40 * number;
    memcpy(file + to, name, strlen(name));
    put(file, to + 8, 0x200, 4);
    put(file, to + 12, at, 4);
    put(file, to + 16, 0x200, 4);
    put(file, to + 20, raw, 4);
    put(file, to + 36, rights, 4);
}

static void put_directory(uint8_t *file, unsigned which, uint32_t at, uint32_t size)
{
    put(file, OPTIONAL_AT + 112 + 8 * which, at, 4);
    put(file, OPTIONAL_AT + 116 + 8 * which, size, 4);
}

static void put_headers(uint8_t *file)
{
    memcpy(file, "MZ", 2);
    put(file, 60, PE, 4);
    memcpy(file + PE, "PE\0\0", 4);
    put(file, PE + 4, 0x8664, 2);
    put(file, PE + 6, 3, 2);
    put(file, PE + 20, 240, 2);
    put(file, PE + 22, 0x22, 2);
    put(file, OPTIONAL_AT, 0x20b, 2);
    put(file, OPTIONAL_AT + 16, 0x1000, 4);
    put(file, OPTIONAL_AT + 24, 0x140000000, 8);
    put(file, OPTIONAL_AT + 32, 0x1000, 4);
    put(file, OPTIONAL_AT + 36, 0x200, 4);
    put(file, OPTIONAL_AT + 56, 0x4000, 4);
    put(file, OPTIONAL_AT + 60, HEADERS, 4);
    put(file, OPTIONAL_AT + 68, 1, 2);
    put(file, OPTIONAL_AT + 108, 16, 4);
    put_section(file, 0, ".text", 0x1000, 0x400, 0x60000020);
    put_section(file, 1, ".rdata", 0x2000, 0x600, 0x40000040);
    put_section(file, 2, ".reloc", 0x3000, 0x800, 0x42000040);
    put_directory(file, 0, 0x2100, 40);
    put_directory(file, 1, 0x2000, 40);
    put_directory(file, 3, 0x2180, 12);
    put_directory(file, 5, 0x3000, 12);
}

/* A driver of three sections: code, data with imports, exports and a table of functions, relocations. */
static void make(uint8_t *file)
{
    uint8_t *data = file + 0x600;
    memset(file, 0, FILE_SIZE);
    put_headers(file);
    put(data, 0, 0x2040, 4); /* one module: its names, its own name, its places */
    put(data, 12, 0x2070, 4);
    put(data, 16, 0x2050, 4);
    put(data, 0x40, 0x2080, 8);
    put(data, 0x50, 0x2080, 8);
    memcpy(data + 0x70, "ntoskrnl.exe", 13);
    memcpy(data + 0x82, "DbgPrint", 9);
    put(data, 0x100 + 20, 1, 4); /* one export */
    put(data, 0x100 + 24, 1, 4);
    put(data, 0x100 + 28, 0x2130, 4);
    put(data, 0x100 + 32, 0x2134, 4);
    put(data, 0x100 + 36, 0x2138, 4);
    put(data, 0x130, 0x1000, 4);
    put(data, 0x134, 0x2140, 4);
    memcpy(data + 0x140, "DriverEntry", 12);
    put(file, 0x800, 0x2000, 4); /* one block with one relocation */
    put(file, 0x804, 12, 4);
    put(file, 0x808, 0xa1f0, 2);
}

static uint64_t find(void *given, const char *module, const char *name)
{
    return (uint64_t)(uintptr_t)given + strlen(module) + strlen(name);
}

static bool use(const uint8_t *file, size_t size, KzRefusal *why)
{
    KzHeaders headers;
    uint8_t *copy = malloc(size ? size : 1);
    memcpy(copy, file, size);
    KzBytes bytes = {copy, size};
    bool is_read = kz_read_headers(bytes, &headers, why);
    if (is_read) {
        KzBytes image = {calloc(1, headers.size), headers.size};
        is_read = kz_lay_out(&headers, bytes, image, 0x180000000, why) && kz_bind(&headers, image, find, &headers, why);
        kz_exported_name(&headers, image, headers.entry);
        free(image.start);
    }
    free(copy);
    return is_read;
}

static void change(uint8_t *file)
{
    static const uint32_t odd[] = {0, 1, 7, 8, 0xff, 0xfff, 0x1000, 0x3fff, 0x7fffffff, 0x80000000, 0xffffffff, 0xfffff000};
    uint32_t place = draw(4) ? draw(SECTIONS + 120) : draw(FILE_SIZE);
    uint32_t value = draw(2) ? odd[draw(sizeof odd / sizeof odd[0])] : draw(0x10000);
    size_t size = draw(3) ? 4 : 1 + draw(2);
    memcpy(file + place, &value, place + size > FILE_SIZE ? FILE_SIZE - place : size);
}

/* ---- A .pdb. */
static KzBytes whole_file(const char *path)
{
    KzBytes bytes = {malloc(1 << 24), 0};
    FILE *from = fopen(path, "rb");
    if (from) {
        bytes.size = fread(bytes.start, 1, 1 << 24, from);
        fclose(from);
    }
    return bytes;
}

static size_t lines_of(const uint8_t *bytes, size_t size, const KzHeaders *headers, const KzBuild *build)
{
    KzRefusal why;
    KzLines lines;
    uint8_t *copy = malloc(size ? size : 1);
    memcpy(copy, bytes, size);
    kz_read_lines((KzBytes){copy, size}, headers, build, &lines, &why);
    size_t count = lines.count;
    free(copy);
    kz_line_at(&lines, headers->entry);
    kz_forget_lines(&lines);
    return count;
}

/* Most changes go to where numbers of blocks and sizes stand. */
static void change_lines(uint8_t *file, size_t size)
{
    uint32_t places[] = {draw(64), draw(4096), 4096 * (1 + draw((uint32_t)size / 4096 - 1)) + draw(128), draw((uint32_t)size)};
    uint32_t place = places[draw(4)], value = draw(2) ? draw(0x10000) : (uint32_t)state;
    memcpy(file + place, &value, place + 4 > size ? size - place : 1 + draw(4));
}

static int read_lines(int seconds, const char *image, const char *path)
{
    KzHeaders headers;
    KzRefusal why;
    KzBuild build;
    KzBytes driver = whole_file(image), file = whole_file(path), info = kz_pdb_stream(file, 1);
    unsigned long tried = 0, taken = 0;
    if (!kz_read_headers(driver, &headers, &why) || !kz_copy(info, 12, &build, sizeof build) || lines_of(file.start, file.size, &headers, &build) < 20)
        return printf("there are no lines in %s\n", path), 1;
    uint8_t *changed = malloc(file.size);
    for (time_t end = time(NULL) + seconds; time(NULL) < end; tried++) {
        memcpy(changed, file.start, file.size);
        for (uint32_t changes = 1 + draw(8); changes > 0; changes--)
            change_lines(changed, file.size);
        taken += lines_of(changed, draw(4) ? file.size : draw((uint32_t)file.size), &headers, &build) > 0;
    }
    printf("%lu files, %lu of them with lines\n", tried, taken);
    free(changed);
    free(info.start);
    free(file.start);
    free(driver.start);
    return taken == 0 || taken == tried;
}

/* ---- Instructions. */
static void decode_some(void)
{
    KzInstruction one;
    size_t size = 1 + draw(16);
    uint8_t *bytes = malloc(size);
    for (size_t at = 0; at < size; at++)
        bytes[at] = (uint8_t)draw(256);
    if (kz_decode(bytes, size, &one) && one.length <= size)
        kz_operand(&one);
    free(bytes);
}

int main(int count, char **words)
{
    if (count == 4)
        return read_lines(atoi(words[1]), words[2], words[3]);
    uint8_t file[FILE_SIZE];
    KzRefusal why = {""};
    unsigned long tried = 0, taken = 0;
    make(file);
    if (count != 2 || !use(file, FILE_SIZE, &why)) {
        printf("the file as it was made is refused: %s\n", why.text);
        return 1;
    }
    time_t end = time(NULL) + atoi(words[1]);
    while (time(NULL) < end) {
        make(file);
        for (uint32_t changes = 1 + draw(8); changes > 0; changes--)
            change(file);
        decode_some();
        taken += use(file, draw(4) ? FILE_SIZE : draw(FILE_SIZE), &why);
        tried++;
    }
    printf("%lu files, %lu of them taken\n", tried, taken);
    return taken == 0 || taken == tried;
}
