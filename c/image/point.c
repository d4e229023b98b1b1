/* A watched instruction has an int 3 in its place. What it is about to do is told, and then it is carried out from another place. One that changes memory without `lock` reads and writes: whatever
 * others wrote between the two is lost, as it would be. */
#include "image/point.h"

#include "image/absent.h"
#include "image/calls.h"
#include "image/slot.h"
#include "core/coverage.h"
#include "core/memory.h"

#include <stdlib.h>

enum { SLOT = 32, INT3 = 0xcc, CHANGES = KZ_READS | KZ_WRITES };

static KzPoint *points; /* in the order of their addresses, when all of an image are put */
static size_t points_count, points_room;
static KzTellAccess *tell;

/* ---- Which ones. */
static bool is_own_frame(const KzCode *code, const KzInstruction *one)
{
    return one->base == KZ_RSP || (one->base != KZ_NONE && one->base == code->frame && one->index == KZ_NONE);
}

static bool is_constant(const KzImage *image, const KzPlaced *placed)
{
    uint64_t at = placed->at + placed->one.length + (uint64_t)(int64_t)placed->one.displacement;
    const KzSection *section = placed->one.base == KZ_RIP ? kz_section_at(&image->headers, (uint32_t)at) : NULL;
    return section && !section->is_written;
}

static bool is_watched(const KzImage *image, const KzCode *code, const KzPlaced *placed, KzOperand operand)
{
    const KzInstruction *one = &placed->one;
    if (!operand.how || one->flow != KZ_GOES_ON || one->has_segment || one->has_short_address)
        return false;
    bool is_pushed = one->map == KZ_ONE_BYTE && (one->opcode == 0x8f || (one->opcode == 0xff && (one->modrm >> 3 & 7) > 1));
    return !is_pushed && (operand.how & KZ_STRING || !(is_own_frame(code, one) || is_constant(image, placed)));
}

static KzPoint *add(void)
{
    if (points_count == points_room) {
        points_room = points_room ? 2 * points_room : 256;
        KzPoint *larger = kz_memory(points_room * sizeof *larger);
        if (points_count)
            memcpy(larger, points, points_count * sizeof *larger);
        free(points);
        points = larger;
    }
    return &points[points_count++];
}

static void put(const KzImage *image, const KzPlaced *placed, KzOperand operand, bool begins, bool ends)
{
    uint8_t *at = image->bytes.start + placed->at, *slot = kz_open_slot(SLOT);
    if (!slot || (*at != image->pristine[placed->at] && !kz_mark_at((uintptr_t)at))) /* something else stands there already */
        return;
    kz_put_jump(kz_move(slot, image->pristine + placed->at, (uintptr_t)at, &placed->one), (uintptr_t)at + placed->one.length);
    *add() = (KzPoint){(uintptr_t)at, slot, placed->one, operand, begins, ends};
    *at = INT3;
}

static void put_all(void *given, const KzCode *code)
{
    const KzImage *image = given;
    uint8_t *marks = kz_memory(code->count + 1);
    enum { BEGINS = 1, ENDS = 2 };
    for (size_t at = 0; at < code->count; at++) {
        size_t end = kz_end_of_update(code, at);
        marks[at] |= end ? BEGINS : 0;
        marks[end] |= end ? ENDS : 0;
    }
    for (size_t at = 0; at < code->count; at++) {
        KzOperand operand = kz_operand(&code->all[at].one);
        if (is_watched(image, code, &code->all[at], operand))
            put(image, &code->all[at], operand, marks[at] & BEGINS, marks[at] & ENDS);
    }
    free(marks);
}

static int compare(const void *a, const void *b)
{
    const KzPoint *one = a, *other = b;
    return one->at < other->at ? -1 : one->at > other->at;
}

void kz_put_points(const KzImage *image)
{
    kz_open_text(image);
    kz_read_code(image, put_all, (void *)(uintptr_t)image);
    kz_close_slots();
    kz_protect_image(image);
    if (points_count)
        qsort(points, points_count, sizeof *points, compare);
}

static const KzPoint *point_at(uint64_t address)
{
    const KzPoint key = {.at = address};
    return points_count ? bsearch(&key, points, points_count, sizeof *points, compare) : NULL;
}

bool kz_is_point(uint64_t address)
{
    return point_at(address) != NULL;
}

/* ---- One is passed. */
static bool tell_access(const KzAccess *access)
{
    kz_look_at_paged(access);
    return tell(access);
}

static bool tell_one(const KzPoint *point, uint64_t address, uint64_t size, unsigned how)
{
    KzAccess access = {.address = (const void *)(uintptr_t)address, .size = size, .from = (const void *)(uintptr_t)(point->at + 1), .how = how};
    return tell_access(&access);
}

static void tell_string(const KzPoint *point, const KzContext *context)
{
    uint64_t count = point->one.repeat ? context->integers[KZ_RCX] : 1, size = count * point->operand.size;
    bool is_compared = (point->one.opcode & 0xf7) == 0xa6 || (point->one.opcode & 0xfe) == 0xae;
    if (!count || (is_compared && point->one.repeat)) /* how far it goes isn't known */
        return;
    if ((point->one.opcode & 0xfe) != 0xaa && (point->one.opcode & 0xfe) != 0xae)
        tell_one(point, context->integers[KZ_RSI], size, 0);
    if (point->operand.how & KZ_WRITES)
        tell_one(point, context->integers[KZ_RDI], size, KZ_ACCESS_WRITES);
}

/* What it read is what it changes: others may have written since. */
static void tell_update(const KzPoint *point, uint64_t address, unsigned how)
{
    uint8_t value[16];
    bool is_shared = tell_one(point, address, point->operand.size, how | KZ_ACCESS_BEGINS);
    if (is_shared)
        memcpy(value, (const void *)(uintptr_t)address, point->operand.size);
    tell_one(point, address, point->operand.size, how | KZ_ACCESS_ENDS | KZ_ACCESS_WRITES);
    if (is_shared && memcmp(value, (const void *)(uintptr_t)address, point->operand.size) != 0)
        memcpy((void *)(uintptr_t)address, value, point->operand.size);
}

static void tell_operand(const KzPoint *point, uint64_t address, const KzContext *context)
{
    unsigned size = point->operand.size, how = size <= 8 && address % size == 0 ? KZ_ACCESS_IS_SINGLE : 0;
    if (point->operand.how & KZ_LOCKED) {
        if (tell_one(point, address, size, KZ_ACCESS_LOCKED | KZ_ACCESS_WRITES) && kz_is_changed(point, context, address))
            tell_one(point, address, size, KZ_ACCESS_CHANGES);
    } else if ((point->operand.how & CHANGES) == CHANGES)
        tell_update(point, address, how);
    else
        tell_one(point, address, size, how | (point->begins_update ? KZ_ACCESS_BEGINS : 0) | (point->ends_update ? KZ_ACCESS_ENDS : 0) | (point->operand.how & KZ_WRITES ? KZ_ACCESS_WRITES : 0));
}

void kz_pass_point(KzContext *context)
{
    const KzPoint *point = point_at(context->rip - 1);
    kz_hit_mark(point->at);
    uint64_t address = point->operand.how & KZ_STRING ? 0 : kz_operand_at(point, context);
    if (point->operand.how & KZ_STRING)
        tell_string(point, context);
    else if (!kz_is_in_list(address))
        tell_operand(point, address, context);
    context->rip = (uintptr_t)point->slot;
}

/* ---- Copies that a binary makes by a call. */
bool kz_watches_copies;
void KZ_MS_ABI kz_watch_copy(void *to, const void *from, size_t size, const void *caller);
void KZ_MS_ABI kz_watch_copy(void *to, const void *from, size_t size, const void *caller)
{
    KzAccess access = {.size = size, .from = caller, .address = from};
    if (from && size)
        tell_access(&access);
    access.address = to;
    access.how = KZ_ACCESS_WRITES;
    if (to && size)
        tell_access(&access);
}

void kz_watch_compare(const void *a, const void *b, size_t size)
{
    KzAccess access = {.size = size, .from = kz_stub_caller, .address = a};
    if (!kz_watches_copies || !size)
        return;
    tell_access(&access);
    access.address = b;
    tell_access(&access);
}

void kz_watch_binaries(KzTellAccess *to)
{
    tell = to;
    kz_watches_copies = true;
    kz_each_image(kz_put_points);
}
