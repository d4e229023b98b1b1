/* Acknowledgements of breaks, by the handle that holds what was broken. The kit's page "Acknowledging Oplock Breaks" has them. */
#include "oplock/held.h"

static KzHeldOplock *breaking_of(const KzOplock *oplock, const void *file)
{
    KzHeldOplock *one = oplock ? oplock->held : NULL;
    while (one && !(one->file == file && one->is_breaking && !one->ends_with_close))
        one = one->next;
    return one;
}

/* What is left is held by the request that acknowledges the break. */
static NTSTATUS keep(KzOplock *oplock, KzHeldOplock *one, KzOplockKind left, const KzOplockAsked *asked)
{
    kz_drop_oplock(oplock, one);
    if (left != KZ_NONE)
        kz_hold_oplock(oplock, left, asked);
    kz_let_waiters(oplock);
    return left == KZ_NONE ? STATUS_SUCCESS : STATUS_PENDING;
}

/* Whoever waits for it, waits for the close from now on. */
static NTSTATUS put_off(KzHeldOplock *one)
{
    one->ends_with_close = true;
    return STATUS_SUCCESS;
}

static NTSTATUS by_levels(KzOplock *oplock, KzHeldOplock *one, const REQUEST_OPLOCK_INPUT_BUFFER *input, const KzOplockAsked *asked)
{
    ULONG offered = kz_level_of(one->left);
    KzOplockKind left = kz_kind_of(input->RequestedOplockLevel);
    bool has_handle = kz_level_of(one->kind) & OPLOCK_LEVEL_CACHE_HANDLE;
    if (input->RequestedOplockLevel & ~offered || (left == KZ_NONE && input->RequestedOplockLevel))
        return STATUS_INVALID_OPLOCK_PROTOCOL;
    if (input->Flags & REQUEST_OPLOCK_INPUT_FLAG_COMPLETE_ACK_ON_CLOSE && has_handle)
        return put_off(one);
    return keep(oplock, one, left, asked);
}

NTSTATUS kz_acknowledge_oplock(KzOplock *oplock, ULONG code, const REQUEST_OPLOCK_INPUT_BUFFER *input, const KzOplockAsked *asked)
{
    KzHeldOplock *one = breaking_of(oplock, asked->by.file);
    if (!one || kz_is_by_levels(one->kind) != (code == FSCTL_REQUEST_OPLOCK))
        return STATUS_INVALID_OPLOCK_PROTOCOL;
    switch (code) {
    case FSCTL_OPLOCK_BREAK_ACKNOWLEDGE:
        return keep(oplock, one, one->left, asked);
    case FSCTL_OPLOCK_BREAK_ACK_NO_2:
        return keep(oplock, one, KZ_NONE, asked);
    case FSCTL_OPBATCH_ACK_CLOSE_PENDING:
        return one->kind == KZ_LEVEL_1 ? keep(oplock, one, KZ_NONE, asked) : put_off(one);
    default:
        return by_levels(oplock, one, input, asked);
    }
}
