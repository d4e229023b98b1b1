/* Which bytes of an image are instructions. Each function is read from its begin to its end, a first time to know where its branches go, and what of it is data: a table of a switch stands
 * behind the code that reads it. One whose branches go to the middle of an instruction was read wrongly, and is left out. */
#include "image/code.h"
#include "image/machine.h"
#include "core/memory.h"

#include <stdlib.h>
#include <sys/mman.h>

enum { IS_BEGIN = 1, IS_TARGET = 2, IS_CODE = 4 };
enum { DIR64 = 10, HANDLERS_OR_CHAINED = 7 };

typedef struct {
    uint32_t begin, end;
} Extent;

typedef struct {
    const KzImage *image;
    KzBytes bytes;
    uint8_t *marks; /* for each byte */
    Extent *extents;
    size_t extents_count, extents_room;
    uint32_t *begins; /* of functions without an entry, as far as they are known */
    size_t begins_count, begins_room, begins_done;
} Reader;

static void *grown(void *memory, size_t count, size_t *room, size_t size)
{
    if (count < *room)
        return memory;
    *room = *room ? 2 * *room : 64;
    void *larger = kz_memory(*room * size);
    if (memory)
        memcpy(larger, memory, count * size);
    free(memory);
    return larger;
}

static void add_extent(Reader *reader, uint32_t begin, uint32_t end)
{
    reader->extents = grown(reader->extents, reader->extents_count, &reader->extents_room, sizeof *reader->extents);
    reader->extents[reader->extents_count++] = (Extent){begin, end};
}

static bool is_run(const Reader *reader, uint64_t at)
{
    const KzSection *section = at < reader->bytes.size ? kz_section_at(&reader->image->headers, (uint32_t)at) : NULL;
    return section && section->is_run;
}

static void add_begin(Reader *reader, uint64_t at)
{
    if (!is_run(reader, at))
        return;
    reader->marks[at] |= IS_TARGET;
    reader->begins = grown(reader->begins, reader->begins_count, &reader->begins_room, sizeof *reader->begins);
    reader->begins[reader->begins_count++] = (uint32_t)at;
}

/* ---- One instruction: where it goes on, and what it has the address of. */
static uint64_t place_of(const KzInstruction *one, uint32_t at)
{
    return at + one->length + (uint64_t)(int64_t)one->displacement;
}

static void note_flow(Reader *reader, const KzInstruction *one, uint32_t at, uint32_t begin, uint32_t end)
{
    uint64_t to = at + one->length + (uint64_t)(int64_t)one->distance;
    if (one->flow != KZ_JUMPS && one->flow != KZ_BRANCHES && one->flow != KZ_CALLS)
        return;
    if (to >= begin && to < end)
        reader->marks[to] |= IS_TARGET;
    else
        add_begin(reader, to);
}

/* A table inside of the function, by its address from the instruction or from the image's begin. */
static uint32_t end_by_table(Reader *reader, const KzInstruction *one, uint32_t at, uint32_t begin, uint32_t end)
{
    if (!one->has_memory || !one->displacement_at || (one->base != KZ_RIP && one->index == KZ_NONE))
        return end;
    uint64_t table = one->base == KZ_RIP ? place_of(one, at) : (uint32_t)one->displacement;
    if (table > at && table >= begin && table < end)
        return (uint32_t)table;
    if (one->base == KZ_RIP && one->opcode == 0x8d && one->map == KZ_ONE_BYTE)
        add_begin(reader, table);
    return end;
}

/* Answers where it ends. */
static uint32_t read_extent(Reader *reader, uint32_t begin, uint32_t end)
{
    KzInstruction one;
    uint32_t at = begin;
    for (; at < end && kz_decode(reader->bytes.start + at, end - at, &one); at += one.length) {
        reader->marks[at] |= IS_BEGIN;
        note_flow(reader, &one, at, begin, end);
        end = end_by_table(reader, &one, at, begin, end);
    }
    return at < end ? at : end;
}

static void mark(Reader *reader, uint32_t begin, uint32_t end)
{
    for (uint32_t at = begin; at < end; at++)
        reader->marks[at] |= IS_CODE;
}

static void read_functions(Reader *reader)
{
    KzBytes table = kz_directory(&reader->image->headers, reader->bytes, KZ_EXCEPTIONS);
    KzFunction one;
    for (size_t row = 0; kz_copy(table, row * sizeof one, &one, sizeof one); row++) {
        if (one.begin >= one.end || one.end > reader->bytes.size || !is_run(reader, one.begin) || reader->marks[one.begin] & IS_CODE)
            continue;
        mark(reader, one.begin, one.end);
        add_extent(reader, one.begin, read_extent(reader, one.begin, one.end));
    }
}

/* ---- Functions without an entry keep to their caller's frame. One ends where it returns, or jumps, and no branch goes further. */
static uint32_t end_without_entry(const Reader *reader, uint32_t begin)
{
    KzInstruction one;
    uint64_t furthest = begin;
    uint32_t at = begin;
    while (is_run(reader, at) && !(reader->marks[at] & IS_CODE) && kz_decode(reader->bytes.start + at, reader->bytes.size - at, &one)) {
        uint64_t to = at + one.length + (uint64_t)(int64_t)one.distance;
        if (one.flow == KZ_BRANCHES && to > furthest)
            furthest = to;
        at += one.length;
        if (at > furthest && one.flow != KZ_GOES_ON && one.flow != KZ_BRANCHES && one.flow != KZ_CALLS && one.flow != KZ_CALLS_BY_POINTER)
            break;
    }
    return at;
}

static void read_without_entries(Reader *reader)
{
    while (reader->begins_done < reader->begins_count) {
        uint32_t begin = reader->begins[reader->begins_done++], end;
        if (reader->marks[begin] & IS_CODE || (end = end_without_entry(reader, begin)) == begin)
            continue;
        mark(reader, begin, end);
        add_extent(reader, begin, read_extent(reader, begin, end));
    }
}

/* Pointers to functions stand among the relocations. */
static void add_relocated(Reader *reader)
{
    KzBytes table = kz_directory(&reader->image->headers, reader->bytes, KZ_RELOCATIONS);
    struct {
        uint32_t page, size;
    } block;
    for (size_t at = 0; kz_copy(table, at, &block, sizeof block) && block.size >= sizeof block; at += block.size)
        for (size_t entry = at + sizeof block; entry + 2 <= at + block.size; entry += 2) {
            uint16_t kind;
            uint64_t value;
            if (kz_copy(table, entry, &kind, sizeof kind) && kind >> 12 == DIR64 && kz_copy(reader->bytes, (uint64_t)block.page + (kind & 0xfff), &value, sizeof value))
                add_begin(reader, value - (uintptr_t)reader->image->bytes.start);
        }
}

/* ---- What is read is given out. */
static bool is_right(const Reader *reader, const Extent *extent)
{
    for (uint32_t at = extent->begin; at < extent->end; at++)
        if (reader->marks[at] & IS_TARGET && !(reader->marks[at] & IS_BEGIN))
            return false;
    return true;
}

static void note_tables(const Reader *reader, const Extent *extent, KzCode *code)
{
    const KzFunction *function = kz_function_at(reader->image, (uintptr_t)reader->image->bytes.start + extent->begin);
    uint8_t head[4] = {0};
    code->frame = KZ_NONE;
    if (!function || !kz_copy(reader->bytes, function->unwind, head, sizeof head))
        return;
    code->frame = head[3] & 15 ? head[3] & 15 : KZ_NONE;
    code->has_handler = (head[0] >> 3 & HANDLERS_OR_CHAINED) != 0;
}

static void give(const Reader *reader, const Extent *extent, KzUseCode *use, void *given)
{
    KzPlaced *all = kz_memory((extent->end - extent->begin + 1) * sizeof *all);
    KzCode code = {.all = all};
    note_tables(reader, extent, &code);
    for (uint32_t at = extent->begin; at < extent->end; at += all[code.count++].one.length) {
        KzPlaced *placed = &all[code.count];
        *placed = (KzPlaced){.at = at, .is_target = reader->marks[at] & IS_TARGET};
        if (!kz_decode(reader->bytes.start + at, extent->end - at, &placed->one))
            break;
        code.has_pointers |= placed->one.flow == KZ_JUMPS_BY_POINTER && placed->one.base != KZ_RIP;
    }
    use(given, &code);
    free(all);
}

void kz_read_code(const KzImage *image, KzUseCode *use, void *given)
{
    Reader reader = {.image = image, .bytes = {image->pristine, image->bytes.size}};
    reader.marks = mmap(NULL, reader.bytes.size, PROT_READ | PROT_WRITE, MAP_PRIVATE | MAP_ANONYMOUS | MAP_NORESERVE, -1, 0);
    if (reader.marks == MAP_FAILED)
        return;
    read_functions(&reader);
    add_begin(&reader, image->headers.entry);
    add_relocated(&reader);
    read_without_entries(&reader);
    for (size_t at = 0; at < reader.extents_count; at++)
        if (is_right(&reader, &reader.extents[at]))
            give(&reader, &reader.extents[at], use, given);
    munmap(reader.marks, reader.bytes.size);
    free(reader.extents);
    free(reader.begins);
}
