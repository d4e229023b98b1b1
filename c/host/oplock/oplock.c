/* Oplocks that are held: how their requests end, who breaks them and who waits for that. */
#include "oplock/held.h"

#include "core/memory.h"

#include <stdlib.h>

/* ---- Who. */
KzOplockSide kz_side_of(const KzHeldOplock *one)
{
    return (KzOplockSide){.file = one->file, .key = one->has_key ? &one->key : NULL};
}

bool kz_have_same_key(const KzOplockSide *one, const KzOplockSide *other)
{
    return one->file == other->file || (one->key && other->key && memcmp(one->key, other->key, sizeof *one->key) == 0);
}

bool kz_is_oplock_of(const KzOplock *oplock, const void *file)
{
    for (const KzHeldOplock *one = oplock ? oplock->held : NULL; one; one = one->next)
        if (one->file == file)
            return true;
    return false;
}

bool kz_has_oplock(const KzOplock *oplock, unsigned kinds)
{
    for (const KzHeldOplock *one = oplock ? oplock->held : NULL; one; one = one->next)
        if (KZ_KIND(one->kind) & kinds)
            return true;
    return false;
}

bool kz_is_oplock_breaking(const KzOplock *oplock)
{
    for (const KzHeldOplock *one = oplock ? oplock->held : NULL; one; one = one->next)
        if (one->is_breaking)
            return true;
    return false;
}

bool kz_lets_fast_by(const KzOplock *oplock)
{
    return !kz_is_oplock_breaking(oplock) && !kz_has_oplock(oplock, KZ_SHARED_KINDS);
}

/* ---- One that is held. */
KzHeldOplock *kz_hold_oplock(KzOplock *oplock, KzOplockKind kind, const KzOplockAsked *asked)
{
    KzHeldOplock *made = kz_memory(sizeof *made), **end = &oplock->held;
    *made = (KzHeldOplock){.file = asked->by.file, .has_key = asked->by.key, .kind = kind, .left = kind, .end = asked->end, .given = asked->given};
    if (asked->by.key)
        made->key = *asked->by.key;
    while (*end)
        end = &(*end)->next;
    *end = made;
    return made;
}

/* Which access and sharing broke it is known of a create. */
static void show_levels(const KzHeldOplock *one, KzOplockKind left, const KzOplockSide *by, REQUEST_OPLOCK_OUTPUT_BUFFER *levels)
{
    memset(levels, 0, sizeof *levels);
    levels->StructureVersion = REQUEST_OPLOCK_CURRENT_VERSION;
    levels->StructureLength = sizeof *levels;
    levels->OriginalOplockLevel = kz_level_of(one->kind);
    levels->NewOplockLevel = kz_level_of(left);
    levels->Flags = one->is_breaking ? REQUEST_OPLOCK_OUTPUT_FLAG_ACK_REQUIRED : 0;
    if (!by || !by->access)
        return;
    levels->Flags |= REQUEST_OPLOCK_OUTPUT_FLAG_MODES_PROVIDED;
    levels->AccessMode = by->access;
    levels->ShareMode = (USHORT)by->share;
}

void kz_end_request(KzHeldOplock *one, NTSTATUS status, KzOplockKind left, const KzOplockSide *by)
{
    REQUEST_OPLOCK_OUTPUT_BUFFER levels;
    KzOplockEnd how = {.status = status};
    if (kz_is_by_levels(one->kind) && NT_SUCCESS(status)) {
        show_levels(one, left, by, &levels);
        how.levels = &levels;
    } else if (NT_SUCCESS(status)) {
        how.information = left == KZ_LEVEL_2 ? FILE_OPLOCK_BROKEN_TO_LEVEL_2 : FILE_OPLOCK_BROKEN_TO_NONE;
    }
    void *given = one->given;
    one->given = NULL;
    if (given)
        one->end(given, &how); /* whoever hears of it may change what is held */
}

static void take_out(KzOplock *oplock, KzHeldOplock *gone)
{
    KzHeldOplock **at = &oplock->held;
    while (*at != gone)
        at = &(*at)->next;
    *at = gone->next;
}

void kz_drop_oplock(KzOplock *oplock, KzHeldOplock *gone)
{
    take_out(oplock, gone);
    free(gone);
}

void kz_take_back_oplock(KzOplock *oplock, KzHeldOplock *gone, NTSTATUS status, KzOplockKind left, const KzOplockSide *by)
{
    take_out(oplock, gone);
    kz_end_request(gone, status, left, by);
    free(gone);
}

/* ---- Breaks. */
/* What is in the way of a use by somebody; its own kind is left if it isn't. */
static KzOplockBreak break_by(const KzHeldOplock *one, KzOplockUse use, const KzOplockSide *by)
{
    const KzOplockSide holder = kz_side_of(one);
    KzOplockBreak made = kz_break_of(use, one->kind);
    bool is_own = kz_have_same_key(&holder, by) && !made.is_for_all;
    return is_own ? (KzOplockBreak){one->kind, false, false} : made;
}

/* The first that is in the way and isn't told yet; `waits` is set if one is to be waited for. */
static KzHeldOplock *first_to_break(const KzOplock *oplock, KzOplockUse use, const KzOplockSide *by, unsigned kinds, bool *waits)
{
    KzHeldOplock *first = NULL;
    for (KzHeldOplock *one = oplock->held; one; one = one->next) {
        KzOplockBreak made = break_by(one, use, by);
        bool is_met = KZ_KIND(one->kind) & kinds && made.left != one->kind;
        *waits |= is_met && made.waits && (one->is_breaking || kz_is_acknowledged(one->kind));
        if (is_met && !one->is_breaking && !first)
            first = one;
    }
    return first;
}

bool kz_break_oplock(KzOplock *oplock, KzOplockUse use, const KzOplockSide *by, unsigned kinds)
{
    bool waits = false;
    KzHeldOplock *one;
    while (oplock && (one = first_to_break(oplock, use, by, kinds, &waits))) {
        KzOplockKind left = break_by(one, use, by).left;
        one->is_breaking = kz_is_acknowledged(one->kind);
        one->left = left;
        if (one->is_breaking)
            kz_end_request(one, STATUS_SUCCESS, left, by);
        else
            kz_take_back_oplock(oplock, one, STATUS_SUCCESS, left, by);
        waits = false; /* it may have been given up meanwhile */
    }
    return waits;
}

bool kz_would_break_oplock(const KzOplock *oplock, KzOplockUse use, const KzOplockSide *by)
{
    for (const KzHeldOplock *one = oplock ? oplock->held : NULL; one; one = one->next)
        if (break_by(one, use, by).left != one->kind)
            return true;
    return false;
}

/* ---- Who waits. */
void kz_wait_for_oplock(KzOplock *oplock, void (*go_on)(void *given), void *given)
{
    KzOplockWait *made = kz_memory(sizeof *made), **end = &oplock->waits;
    *made = (KzOplockWait){.go_on = go_on, .given = given};
    while (*end)
        end = &(*end)->next;
    *end = made;
}

void kz_wait_no_more(KzOplock *oplock, const void *given)
{
    for (KzOplockWait **at = &oplock->waits; *at;) {
        KzOplockWait *one = *at;
        if (one->given != given) {
            at = &one->next;
            continue;
        }
        *at = one->next;
        free(one);
    }
}

bool kz_waits_in_oplock(const KzOplock *oplock, const void *given)
{
    const KzOplockWait *one = oplock ? oplock->waits : NULL;
    while (one && one->given != given)
        one = one->next;
    return one;
}

void kz_let_waiters(KzOplock *oplock)
{
    size_t count = 0;
    for (const KzOplockWait *one = oplock->waits; one; one = one->next)
        count++;
    while (count-- > 0 && oplock->waits) { /* who waits again stands behind them */
        KzOplockWait one = *oplock->waits;
        free(oplock->waits);
        oplock->waits = one.next;
        one.go_on(one.given);
    }
}

/* ---- Ends. */
static KzHeldOplock *first_of(const KzOplock *oplock, const void *file)
{
    KzHeldOplock *one = oplock ? oplock->held : NULL;
    while (one && file && one->file != file)
        one = one->next;
    return one;
}

void kz_give_up_oplock(KzOplock *oplock, const void *file)
{
    bool was_breaking = false;
    for (KzHeldOplock *one = first_of(oplock, file); one; one = first_of(oplock, file)) {
        was_breaking |= one->is_breaking;
        kz_take_back_oplock(oplock, one, file && kz_is_by_levels(one->kind) ? STATUS_OPLOCK_HANDLE_CLOSED : STATUS_SUCCESS, KZ_NONE, NULL);
    }
    if (was_breaking)
        kz_let_waiters(oplock);
}

bool kz_cancel_oplock(KzOplock *oplock, const void *given)
{
    KzHeldOplock *one = oplock ? oplock->held : NULL;
    while (one && one->given != given)
        one = one->next;
    if (one)
        kz_take_back_oplock(oplock, one, STATUS_CANCELLED, KZ_NONE, NULL);
    return one;
}

void kz_forget_request(KzOplock *oplock, const void *given)
{
    for (KzHeldOplock *one = oplock ? oplock->held : NULL; one; one = one->next)
        if (one->given == given)
            one->given = NULL;
}

void kz_free_oplock(KzOplock **oplock)
{
    while (*oplock && (*oplock)->held)
        kz_drop_oplock(*oplock, (*oplock)->held);
    while (*oplock && (*oplock)->waits)
        kz_wait_no_more(*oplock, (*oplock)->waits->given);
    kz.oplocks -= *oplock != NULL;
    free(*oplock);
    *oplock = NULL;
}

void kz_tidy_oplock(KzOplock **oplock)
{
    if (*oplock && !(*oplock)->held && !(*oplock)->waits)
        kz_free_oplock(oplock);
}
