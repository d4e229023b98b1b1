/* Filters in a transaction: they enlist, and hear of each step that they asked for, in the order in which they came. Before a commit each may veto it, which rolls it back. */
#include "manager/transaction.h"

#include "core/client.h"
#include "core/memory.h"
#include "core/place.h"
#include "core/state.h"
#include "filesystem/version.h"
#include "manager/context.h"
#include "manager/filecontext.h"
#include "manager/hand.h"
#include "manager/instance.h"
#include "manager/pre.h"

/* ---- Enlistments. */
static NTSTATUS find(PFLT_INSTANCE instance, PKTRANSACTION transaction, KzMember **member, const char *call)
{
    *member = NULL;
    if (!kz_may_use(call, instance) || !instance || !kz_is_transaction(transaction))
        return STATUS_INVALID_PARAMETER;
    if (transaction->step == KZ_IS_OVER)
        return STATUS_TRANSACTION_NOT_ACTIVE;
    *member = *kz_member_of(transaction, instance);
    return STATUS_SUCCESS;
}

NTSTATUS FltEnlistInTransaction(PFLT_INSTANCE Instance, PKTRANSACTION Transaction, PFLT_CONTEXT TransactionContext, ULONG NotificationMask)
{
    KZ_CALL();
    KzMember *member;
    NTSTATUS status = find(Instance, Transaction, &member, __func__);
    KzContext *context = NT_SUCCESS(status) ? kz_context_of(TransactionContext, __func__) : NULL;
    if (NT_SUCCESS(status))
        status = kz_check_context(Instance, context, FLT_TRANSACTION_CONTEXT, __func__);
    if (!NT_SUCCESS(status))
        return status;
    if (!NotificationMask || !Instance->filter->registration.TransactionNotificationCallback)
        return STATUS_INVALID_PARAMETER;
    if (Transaction->step != KZ_IS_ACTIVE)
        return STATUS_TRANSACTION_NOT_ACTIVE;
    if (member)
        return STATUS_FLT_ALREADY_ENLISTED;
    KzMember *made = *kz_member_of(Transaction, Instance) = kz_memory(sizeof *made);
    *made = (KzMember){.instance = Instance, .context = context, .mask = NotificationMask};
    kz_keep_reference(context, &kz_me->place);
    return STATUS_SUCCESS;
}

/* What it was told, and answered with STATUS_PENDING, is done. */
static NTSTATUS complete(PFLT_INSTANCE instance, PKTRANSACTION transaction, ULONG step, const char *call)
{
    KzMember *member;
    NTSTATUS status = find(instance, transaction, &member, call);
    if (!member || !(member->owes & step))
        return NT_SUCCESS(status) ? STATUS_TRANSACTION_REQUEST_NOT_VALID : status;
    kz_uses_all();
    member->owes = 0;
    kz.changes++;
    kz_scheduler->touch(member, 0, KZT_GIVES);
    return STATUS_SUCCESS;
}

#define COMPLETES(name, step)                                                                         \
    NTSTATUS name(PFLT_INSTANCE Instance, PKTRANSACTION Transaction, PFLT_CONTEXT TransactionContext) \
    {                                                                                                 \
        KZ_CALL();                                                                                    \
        (void)TransactionContext;                                                                     \
        return complete(Instance, Transaction, (step), __func__);                                     \
    }
COMPLETES(FltPrePrepareComplete, TRANSACTION_NOTIFY_PREPREPARE)
COMPLETES(FltPrepareComplete, TRANSACTION_NOTIFY_PREPARE)
COMPLETES(FltCommitComplete, TRANSACTION_NOTIFY_COMMIT)
COMPLETES(FltCommitFinalizeComplete, TRANSACTION_NOTIFY_COMMIT_FINALIZE)
COMPLETES(FltRollbackComplete, TRANSACTION_NOTIFY_ROLLBACK)

NTSTATUS FltRollbackEnlistment(PFLT_INSTANCE Instance, PKTRANSACTION Transaction, PFLT_CONTEXT TransactionContext)
{
    KZ_CALL();
    (void)TransactionContext;
    KzMember *member;
    NTSTATUS status = find(Instance, Transaction, &member, __func__);
    if (!member)
        return NT_SUCCESS(status) ? STATUS_TRANSACTION_NOT_JOINED : status;
    if (Transaction->step != KZ_IS_ACTIVE && Transaction->step != KZ_IS_COMMITTING)
        return STATUS_TRANSACTION_REQUEST_NOT_VALID;
    Transaction->is_vetoed = true;
    member->owes = 0;
    if (Transaction->step == KZ_IS_ACTIVE)
        kz_end_transaction(Transaction, false);
    return STATUS_SUCCESS;
}

/* ---- Its steps. */
static void tell(PKTRANSACTION transaction, KzMember *member, ULONG step)
{
    PFLT_INSTANCE instance = member->instance;
    PFLT_TRANSACTION_NOTIFICATION_CALLBACK function = instance->filter->registration.TransactionNotificationCallback;
    PFLT_CONTEXT context = member->context->body;
    const FLT_RELATED_OBJECTS objects = {sizeof objects, transaction->block.TxFsContext, instance->filter, instance->volume, instance, NULL, transaction};
    FLT_RELATED_OBJECTS *lent = kz_lend_objects(objects);
    uint8_t worker = kz_helper();
    member->owes = step;
    KzPlace before = kz_enter(KZ_IN_NOTIFY, worker, instance->filter, instance, NULL, NULL);
    kz_call_at(PASSIVE_LEVEL);
    bool is_inside = kz_enter_routine(instance, NULL, worker);
    unsigned depth = kz_let_driver("transaction notification", function);
    NTSTATUS status = KZ_CALL_DRIVER(function, lent, context, step);
    kz_driver_returned(depth, "transaction notification returns");
    kz_take_objects(lent);
    kz_keep_rest(NULL);
    kz_leave(before);
    if (is_inside)
        kz_leave_routine(worker);
    kz_helped(worker);
    kz_clean_up();
    KzMember *still = *kz_member_of(transaction, instance); /* the callback may have ended it */
    if (still && status != STATUS_PENDING)
        still->owes = 0;
}

static bool is_done(void *what)
{
    for (const KzMember *one = ((PKTRANSACTION)what)->members; one; one = one->next)
        if (one->owes)
            return false;
    return true;
}

/* All that asked for it, and then whoever answers later is waited for. */
static void tell_all(PKTRANSACTION transaction, ULONG step)
{
    PFLT_INSTANCE heard[KZ_OWED * 2];
    size_t count = 0;
    for (const KzMember *one = transaction->members; one && count < sizeof heard / sizeof heard[0]; one = one->next)
        if (one->mask & step)
            heard[count++] = one->instance;
    for (size_t at = 0; at < count; at++) {
        KzMember *member = *kz_member_of(transaction, heard[at]);
        if (member)
            tell(transaction, member, step);
    }
    kz_wait_for(is_done, transaction, -1, "the end of a transaction's step");
}

static bool prepare(PKTRANSACTION transaction)
{
    tell_all(transaction, TRANSACTION_NOTIFY_PREPREPARE);
    if (!transaction->is_vetoed)
        tell_all(transaction, TRANSACTION_NOTIFY_PREPARE);
    return !transaction->is_vetoed;
}

NTSTATUS kz_end_transaction(PKTRANSACTION transaction, bool is_committed)
{
    kz_uses_all();
    transaction->step = KZ_IS_COMMITTING;
    bool is_kept = is_committed && prepare(transaction);
    transaction->step = is_kept ? KZ_IS_COMMITTING : KZ_IS_ROLLING_BACK;
    tell_all(transaction, is_kept ? TRANSACTION_NOTIFY_COMMIT : TRANSACTION_NOTIFY_ROLLBACK);
    kz_end_versions(transaction, is_kept);
    if (is_kept)
        tell_all(transaction, TRANSACTION_NOTIFY_COMMIT_FINALIZE);
    transaction->step = KZ_IS_OVER;
    while (transaction->members)
        kz_end_member(&transaction->members);
    kz_end_transaction_contexts(transaction);
    kz_clean_up();
    return is_committed && !is_kept ? STATUS_TRANSACTION_ABORTED : STATUS_SUCCESS;
}
