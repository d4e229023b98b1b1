/* Requests of oplocks: which is granted beside what is held already. The kit's page "Granting Oplocks" has a table of it. */
#include "oplock/held.h"

#include "core/memory.h"

bool kz_is_oplock_code(ULONG code)
{
    switch (code) {
    case FSCTL_REQUEST_OPLOCK_LEVEL_1:
    case FSCTL_REQUEST_OPLOCK_LEVEL_2:
    case FSCTL_REQUEST_BATCH_OPLOCK:
    case FSCTL_REQUEST_FILTER_OPLOCK:
    case FSCTL_REQUEST_OPLOCK:
    case FSCTL_OPLOCK_BREAK_ACKNOWLEDGE:
    case FSCTL_OPLOCK_BREAK_ACK_NO_2:
    case FSCTL_OPBATCH_ACK_CLOSE_PENDING:
    case FSCTL_OPLOCK_BREAK_NOTIFY:
        return true;
    default:
        return false;
    }
}

bool kz_waits_for_oplock(ULONG code)
{
    return kz_is_oplock_code(code) && code != FSCTL_OPBATCH_ACK_CLOSE_PENDING && code != FSCTL_OPLOCK_BREAK_ACK_NO_2;
}

KzOplockKind kz_oplock_asked(ULONG code, const REQUEST_OPLOCK_INPUT_BUFFER *input)
{
    switch (code) {
    case FSCTL_REQUEST_OPLOCK_LEVEL_1:
        return KZ_LEVEL_1;
    case FSCTL_REQUEST_OPLOCK_LEVEL_2:
        return KZ_LEVEL_2;
    case FSCTL_REQUEST_BATCH_OPLOCK:
        return KZ_BATCH;
    case FSCTL_REQUEST_FILTER_OPLOCK:
        return KZ_FILTER;
    case FSCTL_REQUEST_OPLOCK:
        return kz_kind_of(input->RequestedOplockLevel);
    default:
        return KZ_NONE;
    }
}

/* ---- What is granted beside others' of these kinds. */
static const unsigned beside[KZ_OPLOCK_KINDS] = {
    [KZ_LEVEL_2] = KZ_KIND(KZ_LEVEL_2) | KZ_KIND(KZ_READ),
    [KZ_READ] = KZ_KIND(KZ_LEVEL_2) | KZ_KIND(KZ_READ) | KZ_KIND(KZ_READ_HANDLE),
    [KZ_READ_HANDLE] = KZ_KIND(KZ_READ) | KZ_KIND(KZ_READ_HANDLE),
};

/* It goes over to a handle of the same key, by which no less is asked for; and a handle's own level 2 gives way to what no other one may have. */
static bool gives_way(const KzHeldOplock *one, KzOplockKind kind, const KzOplockSide *by)
{
    const KzOplockSide holder = kz_side_of(one);
    if (one->is_breaking || !kz_have_same_key(&holder, by))
        return false;
    if (kz_is_by_levels(one->kind))
        return kz_is_by_levels(kind) && !(kz_level_of(one->kind) & ~kz_level_of(kind));
    return one->kind == KZ_LEVEL_2 && one->file == by->file && !kz_is_by_levels(kind) && kind != KZ_LEVEL_2;
}

static bool is_in_the_way(const KzHeldOplock *one, KzOplockKind kind, const KzOplockSide *by)
{
    const KzOplockSide holder = kz_side_of(one);
    bool is_own_level = kz_is_by_levels(one->kind) && kz_is_by_levels(kind) && kz_have_same_key(&holder, by);
    return !gives_way(one, kind, by) && (is_own_level || !(KZ_KIND(one->kind) & beside[kind]));
}

static void take_over(KzOplock *oplock, KzOplockKind kind, const KzOplockSide *by)
{
    for (KzHeldOplock *one = oplock->held, *next; one; one = next) {
        next = one->next;
        bool is_by_levels = kz_is_by_levels(one->kind);
        if (gives_way(one, kind, by))
            kz_take_back_oplock(oplock, one, is_by_levels ? STATUS_OPLOCK_SWITCHED_TO_NEW_HANDLE : STATUS_SUCCESS, is_by_levels ? kind : KZ_NONE, NULL);
    }
}

NTSTATUS kz_request_oplock(KzOplock **oplock, KzOplockKind kind, const KzOplockAsked *asked)
{
    if (asked->has_others)
        return STATUS_OPLOCK_NOT_GRANTED;
    for (const KzHeldOplock *one = *oplock ? (*oplock)->held : NULL; one; one = one->next)
        if (is_in_the_way(one, kind, &asked->by))
            return STATUS_OPLOCK_NOT_GRANTED;
    if (!*oplock) {
        *oplock = kz_memory(sizeof **oplock);
        kz.oplocks++;
    }
    take_over(*oplock, kind, &asked->by);
    kz_hold_oplock(*oplock, kind, asked);
    return STATUS_PENDING;
}
