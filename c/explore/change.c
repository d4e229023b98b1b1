/* A caller's own buffer is his program's, which may change it between two reads of a driver: what is read again is another then. What comes of it is found as anything else is. */
#include "explore.h"
#include "core/access.h"

/* In a number of two bytes and more the second one becomes larger too: a length is far more than it was, and isn't the whole of memory. */
enum { CHANGE = 0x41, LONGEST = 8 };

/* The first of those that have bytes there. */
static Read *read_before(uintptr_t start, uintptr_t end)
{
    for (unsigned at = 0; at < ex->run.reads_count; at++)
        if (ex->run.reads[at].start < end && start < ex->run.reads[at].end)
            return &ex->run.reads[at];
    return NULL;
}

static void keep(uintptr_t start, uintptr_t end)
{
    if (ex->run.reads_count < READS)
        ex->run.reads[ex->run.reads_count++] = (Read){start, end};
}

static void change(uintptr_t start, uintptr_t end)
{
    uintptr_t last = end - start > LONGEST || end - start < 2 ? end : start + 2;
    for (uintptr_t at = start; at < last; at++)
        *(uint8_t *)at ^= CHANGE;
}

void ex_may_change(const void *address, size_t size)
{
    uintptr_t start = (uintptr_t)address, end = start + size;
    bool is_asked = ex->run.changes_used < ex->search.changes || ex->search.replay || ex->run.is_guided;
    KzPiece *piece = is_asked && size ? kz_callers_at(address) : NULL;
    if (!piece)
        return;
    const Read *before = read_before(start, end);
    if (before && ex_is_so(ANSWER_CHANGED, CHANGED, "its program changes what was read there")) {
        ex->run.changes_used++;
        piece->has_changed = true;
        change(start > before->start ? start : before->start, end < before->end ? end : before->end);
    }
    keep(start, end);
}

void ex_forget_reads(const void *address, size_t size)
{
    for (Read *one; (one = read_before((uintptr_t)address, (uintptr_t)address + size));)
        *one = ex->run.reads[--ex->run.reads_count];
}

void ex_begin_changes(void)
{
    ex->run.reads_count = ex->run.changes_used = 0;
}

uint64_t ex_changes_hash(void)
{
    uint64_t hash = ex->run.changes_used;
    for (unsigned at = 0; at < ex->run.reads_count; at++)
        hash += ex_mixed(ex->run.reads[at].start * 3 + ex->run.reads[at].end);
    return hash;
}
