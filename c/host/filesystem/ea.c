/* Extended attributes: a chain of them beside a file, in which each is found by its name without case. */
#include "filesystem/ea.h"

#include "core/memory.h"
#include "core/op.h"
#include "filesystem/name.h"
#include "filesystem/journal.h"
#include "filesystem/record.h"
#include "filesystem/tree.h"
#include "filesystem/version.h"

#include <stdlib.h>
#include <strings.h>

typedef FILE_FULL_EA_INFORMATION Ea;
typedef FILE_GET_EA_INFORMATION Wanted;

enum { HEAD = offsetof(Ea, EaName), WANTED_HEAD = offsetof(Wanted, EaName) };

static size_t size_of(const Ea *one)
{
    return HEAD + one->EaNameLength + 1u + one->EaValueLength;
}

static const Ea *first_of(const void *bytes, size_t length)
{
    return length ? bytes : NULL;
}

static const Ea *next_of(const Ea *one)
{
    return one->NextEntryOffset ? (const void *)((const uint8_t *)one + one->NextEntryOffset) : NULL;
}

static const Ea *named(const Ea *one, const char *name, size_t length)
{
    while (one && (one->EaNameLength != length || strncasecmp(one->EaName, name, length) != 0))
        one = next_of(one);
    return one;
}

/* Whether each entry lies inside; if not, which one doesn't. */
static bool is_chain(const uint8_t *bytes, size_t length, size_t *wrong)
{
    for (*wrong = 0; *wrong + HEAD <= length;) {
        const Ea *one = (const void *)(bytes + *wrong);
        size_t size = size_of(one);
        if (!one->EaNameLength || *wrong + size > length || one->EaName[one->EaNameLength])
            return false;
        if (!one->NextEntryOffset)
            return true;
        if (one->NextEntryOffset < size || one->NextEntryOffset % 4)
            return false;
        *wrong += one->NextEntryOffset;
    }
    return false;
}

/* A chain that is made. */
typedef struct {
    uint8_t *bytes;
    size_t room, used;
    Ea *last;
} Chain;

static bool put(Chain *to, const Ea *one)
{
    size_t place = (to->used + 3) & ~(size_t)3, size = size_of(one);
    if (place + size > to->room)
        return false;
    memset(to->bytes + to->used, 0, place - to->used);
    Ea *made = memcpy(to->bytes + place, one, size);
    made->NextEntryOffset = 0;
    if (to->last)
        to->last->NextEntryOffset = (ULONG)((uint8_t *)made - (uint8_t *)to->last);
    to->last = made;
    to->used = place + size;
    return true;
}

/* Each takes the place of that of its name; one without a value takes it away. */
NTSTATUS kz_set_ea(KzOp *op, const FLT_PARAMETERS *now)
{
    KzName *name = op->file->name;
    KzBytes *kept = &name->file->beside.ea;
    const Ea *asked = first_of(now->SetEa.EaBuffer, now->SetEa.Length);
    size_t wrong, room = kept->length + now->SetEa.Length + 8;
    if (asked && !is_chain(now->SetEa.EaBuffer, now->SetEa.Length, &wrong)) {
        op->opaque->information = wrong;
        return STATUS_EA_LIST_INCONSISTENT;
    }
    Chain made = {.bytes = kz_memory(room), .room = room};
    for (const Ea *one = first_of(kept->bytes, kept->length); one; one = next_of(one))
        if (!named(asked, one->EaName, one->EaNameLength))
            put(&made, one);
    for (const Ea *one = asked; one; one = next_of(one))
        if (one->EaValueLength && !named(next_of(one), one->EaName, one->EaNameLength))
            put(&made, one);
    kz_keep_bytes(kept, made.bytes, made.used);
    free(made.bytes);
    kz_changed(name, FILE_NOTIFY_CHANGE_EA, FILE_ACTION_MODIFIED);
    return STATUS_SUCCESS;
}

/* ---- Those that a list names, in its order: one that isn't there comes without a value, and none comes twice. */
static const Wanted *next_wanted(const Wanted *one)
{
    return one->NextEntryOffset ? (const void *)((const uint8_t *)one + one->NextEntryOffset) : NULL;
}

static bool is_list(const uint8_t *bytes, size_t length, size_t *wrong)
{
    for (*wrong = 0; *wrong + WANTED_HEAD <= length;) {
        const Wanted *one = (const void *)(bytes + *wrong);
        size_t size = WANTED_HEAD + one->EaNameLength + 1u;
        if (!one->EaNameLength || *wrong + size > length || one->EaName[one->EaNameLength])
            return false;
        if (!one->NextEntryOffset)
            return true;
        if (one->NextEntryOffset < size || one->NextEntryOffset % 4)
            return false;
        *wrong += one->NextEntryOffset;
    }
    return false;
}

static bool put_wanted(Chain *to, const Ea *all, const Wanted *wanted)
{
    union {
        Ea ea;
        uint8_t bytes[HEAD + 256];
    } empty = {.ea = {.EaNameLength = wanted->EaNameLength}};
    const Ea *found = named(all, wanted->EaName, wanted->EaNameLength);
    memcpy(empty.bytes + HEAD, wanted->EaName, wanted->EaNameLength);
    return named(to->last ? (const void *)to->bytes : NULL, wanted->EaName, wanted->EaNameLength) || put(to, found ? found : &empty.ea);
}

static NTSTATUS status_of(const Chain *made, bool is_whole)
{
    return is_whole ? STATUS_SUCCESS : made->last ? STATUS_BUFFER_OVERFLOW : STATUS_BUFFER_TOO_SMALL;
}

static NTSTATUS query_list(KzOp *op, const FLT_PARAMETERS *now, Chain *made, const Ea *all)
{
    size_t wrong;
    bool is_single = op->opaque->operation_flags & SL_RETURN_SINGLE_ENTRY, is_whole = true;
    if (!is_list(now->QueryEa.EaList, now->QueryEa.EaListLength, &wrong)) {
        op->opaque->information = wrong;
        return STATUS_EA_LIST_INCONSISTENT;
    }
    for (const Wanted *one = now->QueryEa.EaList; one && is_whole && !(is_single && made->last); one = next_wanted(one))
        is_whole = put_wanted(made, all, one);
    return status_of(made, is_whole);
}

/* ---- Else the handle's next ones, from the first or from a number on. */
static const Ea *ea_at(const Ea *one, ULONG index)
{
    while (one && index--)
        one = next_of(one);
    return one;
}

static NTSTATUS query_next(KzOp *op, const FLT_PARAMETERS *now, Chain *made, const Ea *all)
{
    UCHAR flags = op->opaque->operation_flags;
    ULONG *next = &op->file->next_ea, before = flags & SL_INDEX_SPECIFIED ? now->QueryEa.EaIndex - 1 : flags & SL_RESTART_SCAN ? 0 : *next;
    const Ea *one = ea_at(all, before);
    if (!one)
        return flags & SL_INDEX_SPECIFIED && (!now->QueryEa.EaIndex || !ea_at(all, before - 1)) ? STATUS_NONEXISTENT_EA_ENTRY : STATUS_NO_MORE_EAS;
    bool is_whole = true;
    for (*next = before; one && is_whole && !(flags & SL_RETURN_SINGLE_ENTRY && made->last); one = next_of(one)) {
        is_whole = put(made, one);
        *next += is_whole;
    }
    return status_of(made, is_whole);
}

NTSTATUS kz_query_ea(KzOp *op, const FLT_PARAMETERS *now)
{
    const KzBytes *kept = &kz_beside_of(op->file->name->file, op->file->transaction)->ea;
    const Ea *all = first_of(kept->bytes, kept->length);
    Chain made = {.bytes = now->QueryEa.EaBuffer, .room = now->QueryEa.Length};
    bool has_list = now->QueryEa.EaList && now->QueryEa.EaListLength;
    if (!all && !has_list)
        return STATUS_NO_EAS_ON_FILE;
    NTSTATUS status = has_list ? query_list(op, now, &made, all) : query_next(op, now, &made, all);
    if (made.last)
        op->opaque->information = made.used;
    return status;
}
