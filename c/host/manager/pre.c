/* A preoperation, and what an operation owes an instance after it. */
#include "manager/pre.h"

#include "core/client.h"
#include "core/major.h"
#include "core/module.h"
#include "core/piece.h"
#include "core/place.h"
#include "core/state.h"
#include "core/status.h"
#include "core/transaction.h"
#include "core/told.h"
#include "filesystem/fileobject.h"
#include "filesystem/tree.h"
#include "filesystem/version.h"
#include "manager/answer.h"
#include "manager/context.h"
#include "manager/data.h"
#include "manager/filter.h"
#include "manager/hand.h"
#include "manager/newname.h"
#include "manager/operation.h"

/* A shutdown, and what is asked of a device, has no file object. */
FLT_RELATED_OBJECTS kz_objects_of(PFLT_INSTANCE instance, const KzOp *op)
{
    return kz_objects(instance, op->opaque && op->opaque->has_no_file ? NULL : op->file);
}

FLT_RELATED_OBJECTS kz_objects(PFLT_INSTANCE instance, KzFile *file)
{
    PKTRANSACTION in = file ? file->transaction : NULL;
    return (FLT_RELATED_OBJECTS){sizeof(FLT_RELATED_OBJECTS), in ? in->block.TxFsContext : 0, instance->filter, instance->volume, instance, file ? &file->object : NULL, in};
}

/* What a callback is given of these is gone once it has returned: they are filled then, as if others used that stack. Each client has its own, whoever came before it. */
enum { LISTS = 16, LENT = 64 };
struct KzLentState {
    FLT_RELATED_OBJECTS all[LISTS * LENT];
    bool is_used[LISTS * LENT];
    unsigned next[LISTS];
};

FLT_RELATED_OBJECTS *kz_lend_objects(FLT_RELATED_OBJECTS objects)
{
    unsigned list = kz_me->number % LISTS, *next = &kz.lent->next[list];
    while (kz.lent->is_used[list * LENT + *next % LENT])
        ++*next;
    unsigned at = list * LENT + (*next)++ % LENT;
    kz.lent->is_used[at] = true;
    memcpy(&kz.lent->all[at], &objects, sizeof objects); /* its fields are constants */
    return &kz.lent->all[at];
}

void kz_take_objects(FLT_RELATED_OBJECTS *objects)
{
    memset(objects, KZ_GONE_BYTE, sizeof *objects);
    kz.lent->is_used[objects - kz.lent->all] = false;
}

const KzModule kz_lent_module = {KZ_STATE(lent)};

static bool asks_for_post(FLT_PREOP_CALLBACK_STATUS said)
{
    return said == FLT_PREOP_SUCCESS_WITH_CALLBACK || said == FLT_PREOP_SYNCHRONIZE;
}

/* An operation that a filter completes, with what its answer counts as. */
static void complete(KzOp *op, KazdrinEvent *verdict)
{
    IO_STATUS_BLOCK said = op->data->IoStatus;
    bool is_exact;
    verdict->mode = KZV_COMPLETE;
    if (said.Status == STATUS_PENDING) {
        kz_tell(KZM_COMPLETED_PENDING, "FLT_PREOP_COMPLETE", "IoStatus.Status is STATUS_PENDING: it counts as STATUS_SUCCESS");
        said.Status = STATUS_SUCCESS;
    }
    if (said.Status == STATUS_FLT_DISALLOW_FAST_IO)
        kz_tell(KZM_COMPLETED_PENDING, "FLT_PREOP_COMPLETE", "IoStatus.Status is STATUS_FLT_DISALLOW_FAST_IO: FLT_PREOP_DISALLOW_FASTIO says that");
    verdict->status = (uint8_t)kz_number(said.Status, &is_exact);
    op->other = is_exact ? STATUS_SUCCESS : said.Status;
    if (op->event == KZE_CLEANUP || op->event == KZE_CLOSE) {
        op->other = STATUS_SUCCESS;
        if (NT_SUCCESS(said.Status))
            kz_tell(KZM_CLOSE_COMPLETED, "FLT_PREOP_COMPLETE", "of a cleanup or a close: it counts as FLT_PREOP_SUCCESS_NO_CALLBACK");
        else
            kz_tell(KZM_FAILED_CLOSE, "FLT_PREOP_COMPLETE", "of a cleanup or a close with 0x%08x: these can't fail", (unsigned)said.Status);
    } else if (op->event == KZE_CREATE && said.Status == STATUS_REPARSE) {
        verdict->status = KZS_DEVICE_FAULT; /* nothing is opened, and those above see STATUS_REPARSE */
        op->other = said.Status;
    } else if (op->event == KZE_CREATE && NT_SUCCESS(said.Status)) {
        op->other = STATUS_SUCCESS;
        kz_tell(KZM_CREATE_COMPLETED, "FLT_PREOP_COMPLETE", "of a create with success: it counts as STATUS_ACCESS_DENIED");
    } else {
        kz_serve(op);
    }
}

static bool is_fast(const KzOp *op)
{
    return op->own.is_fast || (op->opaque && op->opaque->data_flags & FLTFL_CALLBACK_DATA_FAST_IO_OPERATION);
}

KazdrinEvent kz_verdict_of(KzOp *op, PFLT_INSTANCE instance, FLT_PREOP_CALLBACK_STATUS said, PVOID completion)
{
    KazdrinEvent verdict = {.mode = KZV_NO_CALLBACK, .operation = op->id, .worker = kz_worker()};
    switch (said) {
    case FLT_PREOP_SUCCESS_WITH_CALLBACK:
    case FLT_PREOP_SYNCHRONIZE:
        verdict.mode = said == FLT_PREOP_SYNCHRONIZE ? KZV_SYNCHRONIZE : KZV_WITH_CALLBACK;
        kz_sends(op, completion, &verdict);
        if (!kz_registered(instance->filter, kz_major_of(op))->PostOperation)
            kz_tell(KZM_NO_POST, "FLT_PREOP_SUCCESS_WITH_CALLBACK", "no postoperation is registered: it counts as FLT_PREOP_SUCCESS_NO_CALLBACK");
        break;
    case FLT_PREOP_SUCCESS_NO_CALLBACK:
        break;
    case FLT_PREOP_PENDING:
        if (!kz_may_be_held(op))
            kz_tell(KZM_NO_VERDICT, "FLT_PREOP_PENDING", "of what is no IRP, and can't be held: it counts as FLT_PREOP_SUCCESS_NO_CALLBACK");
        else
            verdict.mode = KZV_PENDING;
        break;
    case FLT_PREOP_COMPLETE:
        complete(op, &verdict);
        break;
    case FLT_PREOP_DISALLOW_FASTIO:
        if (is_fast(op)) {
            verdict.mode = KZV_COMPLETE;
            verdict.status = KZS_DEVICE_FAULT;
            op->other = STATUS_FLT_DISALLOW_FAST_IO;
            break;
        } /* fall through */
    default:
        kz_tell(KZM_NO_VERDICT, "PFLT_PRE_OPERATION_CALLBACK", "%d is no verdict for an IRP: it counts as FLT_PREOP_SUCCESS_NO_CALLBACK", (int)said);
    }
    return verdict;
}

/* They are the stream's once the file system has opened it, which a create that is sent down again does inside the callback. */
static bool is_its_sections(const KzFile *file, const FILE_OBJECT *before)
{
    const SECTION_OBJECT_POINTERS *now = file->object.SectionObjectPointer;
    return now == before->SectionObjectPointer || (file->name && now == &kz_seen_stream(file)->sections);
}

static bool is_its_context(const KzFile *file, const FILE_OBJECT *before)
{
    const void *now = file->object.FsContext, *own = file->name ? (const void *)file->name->stream : (const void *)file;
    return !now || now == before->FsContext || now == own;
}

void kz_look_at_file(KzOp *op, const FILE_OBJECT *before)
{
    FILE_OBJECT *now = &op->file->object;
    const char *changed = !is_its_context(op->file, before)                               ? "FsContext"
                          : now->FsContext2 && now->FsContext2 != &op->file->sections     ? "FsContext2"
                          : !is_its_sections(op->file, before)                           ? "SectionObjectPointer"
                                                                                         : NULL;
    if (!changed)
        return;
    kz_tell(KZM_NOT_OWN_MEMORY, "FILE_OBJECT", "%s was changed: it is the file system's", changed);
    now->FsContext = before->FsContext;
    now->FsContext2 = before->FsContext2;
    now->SectionObjectPointer = before->SectionObjectPointer;
}

/* What lies below this frame was the callback's, and is nobody's any more. */
static bool is_on_its_stack(const void *address)
{
    enum { DEEPEST = 1 << 14 };
    return (uintptr_t)__builtin_frame_address(0) - (uintptr_t)address < DEEPEST;
}

/* A filter that registered the postoperation alone is taken past as if its preoperation had asked for it. A preoperation that pends may have been completed before it
 * returns: then that is its verdict. */
static FLT_PREOP_CALLBACK_STATUS ask_pre(KzOp *op, PFLT_INSTANCE instance, PVOID *completion)
{
    PFLT_PRE_OPERATION_CALLBACK callback = kz_registered(instance->filter, kz_major_of(op))->PreOperation;
    if (!callback)
        return FLT_PREOP_SUCCESS_WITH_CALLBACK;
    FLT_RELATED_OBJECTS *objects = kz_lend_objects(kz_objects_of(instance, op));
    FILE_OBJECT before = op->file->object;
    op->stage = KZ_IN_PREOPERATION;
    unsigned depth = kz_let_driver("preoperation", callback);
    FLT_PREOP_CALLBACK_STATUS said = KZ_CALL_DRIVER(callback, op->data, objects, completion);
    kz_driver_returned(depth, "preoperation returns");
    kz_take_objects(objects);
    if (said != FLT_PREOP_COMPLETE || op->event != KZE_CREATE) /* who completes a create is the file system of that file */
        kz_look_at_file(op, &before);
    bool is_completed = op->stage == KZ_COMPLETED_IN_PRE;
    op->stage = KZ_GOES_ON;
    if (is_completed && said == FLT_PREOP_PENDING) {
        said = op->early;
        *completion = op->early_context;
        kz_scheduler->touch(op, 0, KZT_TAKES);
    } else if (is_completed) {
        kz_tell(KZM_COMPLETED_NOT_PENDED, "FltCompletePendedPreOperation", "called for an operation that the preoperation doesn't pend");
    }
    if (asks_for_post(said) && is_on_its_stack(*completion))
        kz_tell(KZM_STACK_CONTEXT, "CompletionContext", "it points to a local variable of the preoperation, which has returned");
    kz_take_pre(op, asks_for_post(said) || said == FLT_PREOP_PENDING, said == FLT_PREOP_COMPLETE || said == FLT_PREOP_PENDING);
    return said;
}

/* Whether it still owes the instance something: then its teardown waits. */
bool kz_owes(KzOp *op, PFLT_INSTANCE instance, const KazdrinEvent *verdict)
{
    if (verdict->mode == KZV_PENDING)
        return true;
    return (verdict->mode == KZV_WITH_CALLBACK || verdict->mode == KZV_SYNCHRONIZE) && kz_registered(instance->filter, kz_major_of(op))->PostOperation;
}

static void enter_flight(KzOp *op, PFLT_INSTANCE instance)
{
    instance->in_flight++;
    kz_scheduler->uses(&instance->in_flight, KZU_ADDS);
    if (op->owed_count < KZ_OWED)
        op->owed[op->owed_count++] = (KzOwed){instance, false};
}

void kz_leave_flight(KzOp *op, PFLT_INSTANCE instance)
{
    instance->in_flight--;
    kz_scheduler->uses(&instance->in_flight, KZU_ADDS);
    for (unsigned at = 0; at < op->owed_count; at++)
        if (op->owed[at].instance == instance) {
            op->owed[at] = op->owed[--op->owed_count];
            break;
        }
    kz.changes++;
    kz_scheduler->touch(&instance->in_flight, 0, KZT_GIVES);
}

KzOwed *kz_owed_to(KzOp *op, PFLT_INSTANCE instance)
{
    for (unsigned at = 0; at < op->owed_count; at++)
        if (op->owed[at].instance == instance)
            return &op->owed[at];
    return NULL;
}

void kz_pre(KzOp *op, PFLT_INSTANCE instance)
{
    PVOID completion = NULL;
    enter_flight(op, instance);
    KzPlace before = kz_enter(KZ_IN_PRE, kz_worker(), instance->filter, instance, op, op->data);
    kz_show_pre(op, instance);
    FLT_PREOP_CALLBACK_STATUS said = ask_pre(op, instance, &completion);
    kz_goes_alone(op);
    kz_uses_phases();
    kz_adopt_name(op->file);
    if (said != FLT_PREOP_COMPLETE)
        kz_take_new_name(op, instance);
    KazdrinEvent verdict = kz_verdict_of(op, instance, said, completion);
    if (verdict.mode == KZV_SYNCHRONIZE && kz_owed_to(op, instance))
        kz_owed_to(op, instance)->is_synchronized = true;
    kz_scheduler->touch(&op->users, 0, KZT_GIVES); /* what it sends along may be drained by another client */
    kz_keep_rest(&verdict);
    kz_leave(before);
    kz.changes++;
    if (kazdrin_pre_returned(&kz.manager, &verdict) == KZS_OK && verdict.mode == KZV_PENDING) {
        op->stage = KZ_HELD_BY_PRE;
        op->has_pended = true;
        op->holder = instance;
        op->holder_function = kz_registered(instance->filter, kz_major_of(op))->PreOperation;
    }
    if (!kz_owes(op, instance, &verdict))
        kz_leave_flight(op, instance);
    kz_scheduler->uses(&instance->in_flight, KZU_ADDS); /* what it owes now a teardown may drain */
    kz_clean_up();
}
