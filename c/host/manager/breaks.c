/* Operations that an oplock is in the way of: apart from whoever began them, or in that one's thread. */
#include "manager/breaks.h"

#include "core/client.h"
#include "core/op.h"
#include "core/told.h"
#include "filesystem/name.h"
#include "filesystem/oplocks.h"
#include "filesystem/store.h"
#include "filesystem/waiting.h"

void kz_keep_waiting(KzOp *op)
{
    op->is_waiting = op->has_pended = true;
    kz_scheduler->touch(op, 0, KZT_GIVES); /* another client may carry it on */
    kz.changes++;
}

bool kz_waits_apart(KzOp *op)
{
    bool is_apart = op->own.is_own ? !op->own.is_waited_for : op->own.has_worker;
    kz_wait_for_break(op, is_apart);
    if (is_apart)
        kz_keep_waiting(op);
    return is_apart;
}

static bool is_over(void *op)
{
    return ((KzOp *)op)->breaks.is_over;
}

/* The cleanup of the very handle that is to acknowledge the break, in which a filter's own operation waits for that. */
static const KzOp *cleanup_of_owner(const KzOp *op)
{
    for (const KzOp *one = kz.ops; one; one = one->next)
        if (one->event == KZE_CLEANUP && one->runner == kz_me && one->stage == KZ_IN_PREOPERATION && kz_is_break_of(op, one->file))
            return one;
    return NULL;
}

static bool tell_endless(KzOp *op)
{
    const KzOp *cleanup = op->own.is_own && !op->own.is_user && kz_me->place.op ? cleanup_of_owner(op) : NULL;
    if (!cleanup)
        return false;
    kz_tell(KZM_OWN_OPLOCK, kz_me->place.call, "it waits for the break of the oplock that the handle has whose cleanup waits for this call: nobody acknowledges that");
    kz_me->place.filter->gave_up = true; /* it never comes back */
    return true;
}

/* Whoever asked for the oplock hears of the break in the breaker's thread. */
static bool tell_owners(KzCan *is_over, void *what)
{
    bool has_moved = false;
    while (!is_over(what) && (kz_run_waiting() || kz.store->resume()))
        has_moved = true;
    return has_moved;
}

bool kz_let_break_end(KzCan *is_over, void *what, const char *path)
{
    kz_scheduler->touch(what, 0, KZT_GIVES);
    tell_owners(is_over, what);
    while (!is_over(what) && (kz_let_others() || tell_owners(is_over, what)))
        ;
    bool has_ended = is_over(what) || kz_wait(is_over, what, "the break of an oplock of \\%s", path);
    kz_scheduler->touch(what, 0, KZT_TAKES);
    kz_uses_all();
    if (!has_ended)
        kz_tell(KZM_NOBODY_SETS, kz_me->place.call ? kz_me->place.call : "a request", "it waits for the break of an oplock, and nobody else runs here who would acknowledge that: it answers STATUS_CANNOT_BREAK_OPLOCK");
    return has_ended;
}

bool kz_has_break_ended(KzOp *op)
{
    tell_owners(is_over, op);
    bool has_ended = is_over(op) || (!tell_endless(op) && kz_let_break_end(is_over, op, kz_name_now(op->file)));
    if (!has_ended)
        kz_wait_no_more_for_break(op);
    return has_ended;
}
