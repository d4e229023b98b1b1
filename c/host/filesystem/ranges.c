/* Locks of ranges of bytes. One that can't be had is refused at once, or waits for those before it. */
#include "filesystem/ranges.h"

#include "core/memory.h"
#include "core/module.h"
#include "core/op.h"
#include "filesystem/tree.h"
#include "filesystem/waiting.h"

#include <stdlib.h>

/* An operation that waits for a lock. */
typedef struct Wanted {
    struct Wanted *next;
    KzOp *op;
    uint64_t number;
    KzRange range;
} Wanted;

struct KzRangeState {
    Wanted *wanted;
};

/* ---- Of anything. Of two that have no bytes none lies in the other; one that has none lies in another where bytes of that stand before and after it. */
static bool ends_before(uint64_t from, uint64_t length, uint64_t other)
{
    return length ? from + (length - 1) < other : from <= other;
}

static bool is_apart(const KzRange *held, uint64_t from, uint64_t length)
{
    return ends_before(held->from, held->length, from) || ends_before(from, length, held->from);
}

/* Of the same bytes its owner may have a shared lock beside the exclusive one. */
static bool is_in_the_way(const KzHeldRange *one, const void *owner, const KzRange *range)
{
    bool is_own = one->owner == owner && one->range.key == range->key && one->range.from == range->from && one->range.length == range->length;
    return !is_apart(&one->range, range->from, range->length) && (range->is_exclusive || (one->range.is_exclusive && !is_own));
}

NTSTATUS kz_hold_range(KzHeldRange **list, const void *owner, const KzRange *range)
{
    if (range->length && range->from > UINT64_MAX - (range->length - 1))
        return STATUS_INVALID_LOCK_RANGE;
    for (const KzHeldRange *one = *list; one; one = one->next)
        if (is_in_the_way(one, owner, range))
            return STATUS_LOCK_NOT_GRANTED;
    KzHeldRange *made = kz_memory(sizeof *made);
    *made = (KzHeldRange){*list, owner, *range};
    *list = made;
    return STATUS_SUCCESS;
}

static KzHeldRange *taken(KzHeldRange **at)
{
    KzHeldRange *gone = *at;
    if (gone)
        *at = gone->next;
    return gone;
}

static bool is_the_one(const KzHeldRange *one, const void *owner, const KzRange *range, bool is_exclusive)
{
    return one->owner == owner && one->range.from == range->from && one->range.length == range->length && one->range.key == range->key && one->range.is_exclusive == is_exclusive;
}

static KzHeldRange **place_of(KzHeldRange **at, const void *owner, const KzRange *range, bool is_exclusive)
{
    while (*at && !is_the_one(*at, owner, range, is_exclusive))
        at = &(*at)->next;
    return at;
}

KzHeldRange *kz_take_range(KzHeldRange **list, const void *owner, const KzRange *range)
{
    KzHeldRange **exclusive = place_of(list, owner, range, true);
    return taken(*exclusive ? exclusive : place_of(list, owner, range, false));
}

KzHeldRange *kz_take_any_range(KzHeldRange **list, const void *owner, const ULONG *key)
{
    while (*list && ((*list)->owner != owner || (key && (*list)->range.key != *key)))
        list = &(*list)->next;
    return taken(list);
}

bool kz_is_held_against(const KzHeldRange *list, const void *owner, const ULONG *key, uint64_t from, uint64_t length, bool is_write)
{
    for (const KzHeldRange *one = list; one; one = one->next) {
        bool is_own = one->owner == owner && (!key || one->range.key == *key), is_against = one->range.is_exclusive ? !is_own : is_write;
        if (is_against && length && one->range.length && !is_apart(&one->range, from, length))
            return true;
    }
    return false;
}

/* ---- Of streams. */
NTSTATUS kz_lock_range(KzFile *file, const KzRange *range)
{
    return kz_hold_range(&file->name->stream->locks, file, range);
}

NTSTATUS kz_wait_for_range(KzOp *op, const KzRange *range)
{
    NTSTATUS status = kz_lock_range(op->file, range);
    if (status != STATUS_LOCK_NOT_GRANTED)
        return status;
    Wanted *made = kz_memory(sizeof *made), **end = &kz.range->wanted;
    *made = (Wanted){.op = op, .number = op->id, .range = *range};
    while (*end)
        end = &(*end)->next;
    *end = made;
    return kz_wait_in_file_system(op);
}

/* Those that waited longest come first. What is over already wants none. */
static void grant(void)
{
    for (Wanted **at = &kz.range->wanted; *at;) {
        Wanted *one = *at;
        bool waits = kz_still_waits(one->op, one->number);
        if (waits && !NT_SUCCESS(kz_lock_range(one->op->file, &one->range))) {
            at = &one->next;
            continue;
        }
        if (waits)
            kz_make_due(one->op, STATUS_SUCCESS);
        *at = one->next;
        free(one);
    }
}

NTSTATUS kz_unlock_range(KzFile *file, const KzRange *range)
{
    KzHeldRange *gone = kz_take_range(&file->name->stream->locks, file, range);
    if (!gone)
        return STATUS_RANGE_NOT_LOCKED;
    free(gone);
    grant();
    return STATUS_SUCCESS;
}

NTSTATUS kz_unlock_ranges(KzFile *file, const ULONG *key)
{
    for (KzHeldRange *gone; file->name && (gone = kz_take_any_range(&file->name->stream->locks, file, key));)
        free(gone);
    grant();
    return STATUS_SUCCESS;
}

bool kz_has_ranges(const KzStream *stream)
{
    return stream->locks;
}

bool kz_is_locked(const KzFile *file, uint64_t from, uint64_t length, bool is_write)
{
    return file->name && kz_is_held_against(file->name->stream->locks, file, NULL, from, length, is_write);
}

static void free_ranges(void)
{
    while (kz.range->wanted) {
        Wanted *gone = kz.range->wanted;
        kz.range->wanted = gone->next;
        free(gone);
    }
}

const KzModule kz_range_module = {KZ_STATE(range), .free = free_ranges};
