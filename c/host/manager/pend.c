/* Operations that a filter holds go on: it completes what it pended, in any order and from anywhere. */
#include "manager/pend.h"

#include "core/client.h"
#include "core/state.h"
#include "core/told.h"
#include "manager/answer.h"
#include "manager/block.h"
#include "manager/data.h"
#include "manager/instance.h"
#include "manager/operation.h"
#include "manager/pre.h"

void kz_resume(KzOp *op)
{
    kz_uses_all();
    op->next_resumed = NULL;
    *kz.resumed_end = op;
    kz.resumed_end = &op->next_resumed;
}

static void resume(KzOp *op)
{
    if (op->maker == kz_me->number || op->opaque || op->own.is_own)
        kz_uses_all();
    op->stage = KZ_RESUMED;
    op->comes_from_device = false;
    kz.changes++;
    kz_scheduler->touch(op, 0, KZT_GIVES);
    kz_renew_data(op);
    if (!op->runner)
        kz_resume(op);
}

/* Makes the event where its client is, if that is in a callback or a routine of the holder, and else in a routine: whoever completes an operation in the kit may do so from
 * anywhere. */
static uint32_t holder_event(PFLT_INSTANCE holder, KazdrinEvent event, const uint8_t *bytes, size_t length)
{
    uint32_t status = kz_me->place.instance == holder ? kz_event_with(kz_worker(), event, bytes, length).status : KZS_WRONG_STEP;
    if (status != KZS_WRONG_STEP)
        return status;
    uint8_t worker = kz_helper();
    bool is_in = kz_enter_routine(holder, NULL, worker);
    event.flag = 0; /* a reference of another callback's doesn't go along */
    status = kz_event_with(worker, event, bytes, length).status;
    if (is_in)
        kz_leave_routine(worker);
    kz_helped(worker);
    return status;
}

static bool resume_from(const char *call, KzOp *op, KazdrinEvent event)
{
    uint32_t status = holder_event(op->holder, event, (const uint8_t *)"", 0);
    if (status == KZS_BAD_REQUEST)
        kz_tell(KZM_NO_HELD_VERDICT, call, "a verdict that is none of a held operation's");
    return status == KZS_OK;
}

/* Parameters that were changed while it was held are what those below see. */
static uint32_t change_held(KzOp *op, KazdrinEvent event, const uint8_t *bytes, size_t length)
{
    event.kind = (uint8_t)event.event;
    event.event = KZE_CHANGE_HELD;
    event.operation = op->id;
    return holder_event(op->holder, event, bytes, length);
}

/* As the kit may do it: the rest of an operation runs inside the call that completes it, and its own client has its answer. Where it goes on otherwise, that client carries it on. */
static void carry_inside(KzOp *op)
{
    KzPlace before = kz_me->place;
    uint8_t worker = kz_helper();
    KzClient *runner = op->runner;
    kz_me->place.worker = worker;
    kz_carry(op);
    op->runner = runner;
    if (op->stage == KZ_GOES_ON)
        op->stage = KZ_RESUMED;
    kz.changes++;
    kz_scheduler->touch(op, 0, KZT_GIVES);
    kz_me->place = before;
    kz_helped(worker);
}

VOID FltCompletePendedPreOperation(PFLT_CALLBACK_DATA CallbackData, FLT_PREOP_CALLBACK_STATUS CallbackStatus, PVOID Context)
{
    KZ_CALL();
    KzOp *op = kz_op_with(CallbackData);
    bool is_verdict = CallbackStatus == FLT_PREOP_SUCCESS_WITH_CALLBACK || CallbackStatus == FLT_PREOP_SUCCESS_NO_CALLBACK || CallbackStatus == FLT_PREOP_COMPLETE;
    if (!op || (op->stage != KZ_HELD_BY_PRE && op->stage != KZ_IN_PREOPERATION)) {
        kz_tell(KZM_COMPLETED_TWICE, __func__, "no operation that a preoperation holds (completed twice?)");
        return;
    }
    kz_uses_little(); /* it, and what stands behind it if nobody waits for it */
    kz_scheduler->uses(op, KZU_WRITES);
    if (!is_verdict) {
        kz_tell(KZM_NO_HELD_VERDICT, __func__, "%d is none of a held operation's verdicts: it stays held", (int)CallbackStatus);
        return;
    }
    if (op->stage == KZ_IN_PREOPERATION) {
        op->stage = KZ_COMPLETED_IN_PRE;
        op->early = CallbackStatus;
        op->early_context = Context;
        kz_scheduler->touch(op, 0, KZT_GIVES);
        return;
    }
    if (op->cancel.routine) {
        kz_tell(KZM_CANCEL_LEFT, "FltClearCancelCompletion", "never called before the operation goes on: its routine may be called for one that is gone");
        op->cancel.routine = NULL;
    }
    if (kz_is_touched(op) && CallbackStatus != FLT_PREOP_COMPLETE)
        kz_take_held_pre(op, CallbackStatus == FLT_PREOP_SUCCESS_WITH_CALLBACK, change_held);
    KzPlace before = kz_me->place;
    KazdrinEvent verdict = kz_verdict_of(op, op->holder, CallbackStatus, Context);
    kz_me->place = before;
    verdict.event = KZE_RESUME_PRE;
    PFLT_INSTANCE holder = op->holder;
    if (!resume_from(__func__, op, verdict))
        return;
    resume(op);
    kz_scheduler->uses(&holder->in_flight, KZU_ADDS);
    if (!kz_owes(op, holder, &verdict))
        kz_leave_flight(op, holder);
    if (op->runner && op->is_awaited && kz_scheduler->choose(2, KZ_CHOICE_INSIDE, __func__)) /* one that doesn't wait yet carries it on itself */
        carry_inside(op);
}

VOID FltCompletePendedPostOperation(PFLT_CALLBACK_DATA CallbackData)
{
    KZ_CALL();
    KzOp *op = kz_op_with(CallbackData);
    kz_uses_little();
    kz_scheduler->uses(op, KZU_WRITES);
    if (op && op->stage == KZ_IN_POSTOPERATION) {
        op->stage = KZ_COMPLETED_IN_POST; /* the callback is about to hold it */
        kz_scheduler->touch(op, 0, KZT_GIVES);
        return;
    }
    if (!op || op->stage != KZ_HELD_BY_POST) {
        kz_tell(KZM_COMPLETED_TWICE, __func__, "no operation that a postoperation holds (completed twice?)");
        return;
    }
    PFLT_INSTANCE holder = op->holder;
    kz_take_held(op);
    if (resume_from(__func__, op, (KazdrinEvent){.event = KZE_RESUME_POST, .operation = op->id})) {
        resume(op);
        kz_leave_flight(op, holder);
    }
}
