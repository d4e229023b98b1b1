/* A postoperation, and a drain in its place. */
#include "manager/post.h"

#include "core/client.h"
#include "core/held.h"
#include "core/major.h"
#include "core/place.h"
#include "core/state.h"
#include "core/told.h"
#include "filesystem/fileobject.h"
#include "manager/answer.h"
#include "manager/below.h"
#include "manager/buffer.h"
#include "manager/instance.h"
#include "manager/opaque.h"
#include "manager/context.h"
#include "manager/filter.h"
#include "manager/hand.h"
#include "manager/operation.h"
#include "manager/pre.h"

static int at_dispatch = KZ_DISPATCH_DATA;

void kz_dispatch(int which)
{
    at_dispatch = which;
}

bool kz_dispatch_as(const char *word)
{
    static const char *const words[] = {"none", "data", "all"};
    for (int at = 0; at < 3; at++)
        if (strcmp(words[at], word) == 0) {
            kz_dispatch(at);
            return true;
        }
    return false;
}

/* What a device answers may come up at DISPATCH_LEVEL, as far as nobody had it wait, and up to an instance that synchronizes. The kit has creates, cleanups and closes at PASSIVE_LEVEL. */
static KIRQL irql_of(KzOp *op, PFLT_INSTANCE instance)
{
    const KzOwed *owed = kz_owed_to(op, instance);
    bool is_data = op->event == KZE_READ || op->event == KZE_WRITE, is_fixed = op->event == KZE_CREATE || op->event == KZE_CLEANUP || op->event == KZE_CLOSE;
    if (owed && owed->is_synchronized)
        op->comes_from_device = false;
    if (!op->comes_from_device || is_fixed || at_dispatch == KZ_DISPATCH_NONE)
        return PASSIVE_LEVEL;
    return is_data || at_dispatch == KZ_DISPATCH_ALL ? DISPATCH_LEVEL : PASSIVE_LEVEL;
}

/* The callback that a postoperation put off runs in the system's process, as soon as that has returned: what it returns is the postoperation's verdict. */
static FLT_POSTOP_CALLBACK_STATUS call_when_safe(KzOp *op, PFLT_INSTANCE instance, FLT_POSTOP_CALLBACK_STATUS said)
{
    FLT_RELATED_OBJECTS *objects = kz_lend_objects(kz_objects_of(instance, op));
    KzSafe safe = op->safe;
    uint64_t process = kz_me->process, thread = kz_me->thread;
    op->safe = (KzSafe){0};
    if (said != FLT_POSTOP_MORE_PROCESSING_REQUIRED)
        kz_tell(KZM_COMPLETED_TWICE, "FltDoCompletionProcessingWhenSafe", "put a callback off, and the postoperation doesn't return FLT_POSTOP_MORE_PROCESSING_REQUIRED: both complete the operation");
    kz_tell_locks();
    kz_call_at(PASSIVE_LEVEL);
    op->comes_from_device = false;
    op->stage = KZ_IN_POSTOPERATION;
    kz_me->process = 4;
    kz_me->thread = 8;
    unsigned depth = kz_let_driver("postoperation when safe", safe.callback);
    said = KZ_CALL_DRIVER(safe.callback, op->data, objects, safe.completion, safe.flags);
    kz_driver_returned(depth, "postoperation when safe returns");
    kz_take_objects(objects);
    kz_me->process = process;
    kz_me->thread = thread;
    return said;
}

static FLT_POSTOP_CALLBACK_STATUS ask_post(KzOp *op, PFLT_INSTANCE instance, PVOID completion)
{
    FLT_RELATED_OBJECTS *objects = kz_lend_objects(kz_objects_of(instance, op));
    PFLT_POST_OPERATION_CALLBACK callback = kz_registered(instance->filter, kz_major_of(op))->PostOperation;
    FILE_OBJECT before = op->file->object;
    op->stage = KZ_IN_POSTOPERATION;
    unsigned depth = kz_let_driver("postoperation", callback);
    FLT_POSTOP_CALLBACK_STATUS said = KZ_CALL_DRIVER(callback, op->data, objects, completion, 0);
    kz_driver_returned(depth, "postoperation returns");
    kz_take_objects(objects);
    kz_look_at_file(op, &before);
    return said;
}

void kz_post(KzOp *op, PFLT_INSTANCE instance, PVOID completion)
{
    KzPlace before = kz_enter(KZ_IN_POST, kz_worker(), instance->filter, instance, op, op->data);
    kz_call_at(irql_of(op, instance));
    kz_show_post(op, instance);
    if (op->event == KZE_CREATE && op->lent.status == KZS_OK && !op->is_cancelled)
        kz_file_answered(op->file, op->lent.information);
    FLT_POSTOP_CALLBACK_STATUS said = ask_post(op, instance, completion);
    kz_goes_alone(op);
    kz_uses_phases();
    if (op->safe.callback)
        said = call_when_safe(op, instance, said);
    bool is_completed = op->stage == KZ_COMPLETED_IN_POST;
    op->stage = KZ_GOES_ON;
    if (is_completed)
        kz_scheduler->touch(op, 0, KZT_TAKES); /* behind whoever completed it */
    kz_take_post(op);
    kz_keep_rest(NULL);
    bool is_more = said == FLT_POSTOP_MORE_PROCESSING_REQUIRED;
    if (is_more && !kz_may_be_held(op)) {
        kz_tell(KZM_NO_VERDICT, "FLT_POSTOP_MORE_PROCESSING_REQUIRED", "of what is no IRP, and can't be held: it counts as FLT_POSTOP_FINISHED_PROCESSING");
        is_more = false, said = FLT_POSTOP_FINISHED_PROCESSING;
    }
    if (is_more && is_completed)
        is_more = false, said = FLT_POSTOP_FINISHED_PROCESSING;
    else if (is_completed)
        kz_tell(KZM_COMPLETED_TWICE, "FltCompletePendedPostOperation", "called for an operation that the postoperation doesn't hold");
    if (!is_more && said != FLT_POSTOP_FINISHED_PROCESSING)
        kz_tell(KZM_NO_VERDICT, "PFLT_POST_OPERATION_CALLBACK", "%d is no verdict: it counts as FLT_POSTOP_FINISHED_PROCESSING", (int)said);
    kz_leave(before);
    op->shown.status = op->data->IoStatus;
    KazdrinEvent verdict = {.mode = is_more ? KZV_MORE_PROCESSING : KZV_FINISHED, .worker = kz_worker()};
    kz.changes++;
    if (kazdrin_post_returned(&kz.manager, &verdict) == KZS_OK && is_more) {
        op->stage = KZ_HELD_BY_POST;
        op->has_pended = true;
        op->holder = instance;
        op->holder_function = kz_registered(instance->filter, kz_major_of(op))->PostOperation;
    } else {
        kz_leave_flight(op, instance);
    }
    kz_clean_up();
}

/* Its own client's, or one that the teardown takes. */
static void use_drain(const KzOp *op, PFLT_INSTANCE instance)
{
    if (op->maker == kz_me->number) {
        kz_goes_alone(op);
    } else {
        kz_uses_teardown(instance, false);
        kz_scheduler->uses(op, KZU_WRITES);
    }
    kz_scheduler->uses(&instance->in_flight, KZU_ADDS);
}

/* The callback data of a drain is its own, since another filter may hold the operation: it says only what the operation is. */
void kz_drain(KzOp *op, PFLT_INSTANCE instance, PVOID completion)
{
    FLT_RELATED_OBJECTS objects = kz_objects_of(instance, op);
    FLT_IO_PARAMETER_BLOCK iopb = {.MajorFunction = kz_major_of(op),
                                   .MinorFunction = op->opaque ? op->opaque->minor : IRP_MN_NORMAL,
                                   .TargetInstance = instance,
                                   .TargetFileObject = objects.FileObject};
    FLT_CALLBACK_DATA data = {.Flags = kz_data_flags(op) | FLTFL_CALLBACK_DATA_POST_OPERATION | FLTFL_CALLBACK_DATA_DRAINING_IO,
                              .Thread = op->thread,
                              .Iopb = &iopb,
                              .RequestorMode = kz_requestor_of(op)};
    use_drain(op, instance);
    KzPlace before = kz_enter(KZ_IN_DRAIN, kz_worker(), instance->filter, instance, op, &data);
    PFLT_POST_OPERATION_CALLBACK callback = kz_registered(instance->filter, kz_major_of(op))->PostOperation;
    op->users++;
    kz_scheduler->touch(&op->users, 0, KZT_TAKES);
    if (op->opaque)
        kz_forget_opaque_swap(op, instance); /* what goes down in its buffer is still to be read */
    unsigned depth = kz_let_driver("drain", callback);
    FLT_POSTOP_CALLBACK_STATUS said = KZ_CALL_DRIVER(callback, &data, &objects, completion, FLTFL_POST_OPERATION_DRAINING);
    kz_driver_returned(depth, "drain returns");
    op->users--;
    if (said != FLT_POSTOP_FINISHED_PROCESSING)
        kz_tell(KZM_HELD_DRAIN, "FLTFL_POST_OPERATION_DRAINING", "a drain can't be held: it counts as FLT_POSTOP_FINISHED_PROCESSING");
    kz_forget_swap(op, instance);
    kz_keep_rest(NULL);
    kz_leave(before);
    use_drain(op, instance);
    kz_leave_flight(op, instance);
    if (op->stage == KZ_OVER)
        kz_forget_op(op);
}

/* Has a stopping instance let go of what the first operation owes it, before its turn; false if none does. */
bool kz_drain_next(PFLT_INSTANCE instance)
{
    kz_pause("drain");
    kz_uses_teardown(instance, false);
    KzTold taken = kz_event(kz_worker(), (KazdrinEvent){.event = KZE_DRAIN_TAKE, .instance = instance->id});
    if (taken.status != KZS_OK || !taken.told.action)
        return false;
    KzOp *op = kz_op_of(taken.told.operation);
    PVOID completion = (PVOID)(uintptr_t)taken.told.number;
    if (op)
        kz_drain(op, instance, completion);
    kz_event(kz_worker(), (KazdrinEvent){.event = KZE_DRAIN_DONE});
    kz_clean_up();
    return true;
}
