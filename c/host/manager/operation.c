/* Operations: each from its beginning to its reply, with all callbacks in between. */
#include "manager/operation.h"

#include "cache/cache.h"
#include "core/client.h"
#include "core/clock.h"
#include "core/kept.h"
#include "core/memory.h"
#include "core/module.h"
#include "core/piece.h"
#include "core/place.h"
#include "core/state.h"
#include "core/told.h"
#include "filesystem/fileobject.h"
#include "filesystem/disk.h"
#include "filesystem/name.h"
#include "manager/base.h"
#include "manager/below.h"
#include "manager/block.h"
#include "manager/opaque.h"
#include "manager/context.h"
#include "manager/data.h"
#include "manager/filter.h"
#include "manager/outcome.h"
#include "manager/pend.h"
#include "manager/perform.h"
#include "manager/post.h"
#include "manager/pre.h"

#include <stdlib.h>

typedef enum { GOES, HELD, DONE } Turn;

/* ---- Operations under way. */
KzOp *kz_op_of(uint64_t id)
{
    for (KzOp *op = kz.ops; op; op = op->next)
        if (op->id == id)
            return op;
    return NULL;
}

KzOp *kz_op_with(PFLT_CALLBACK_DATA data)
{
    for (KzOp *op = kz.ops; op; op = op->next)
        if (op->data == data)
            return op;
    return NULL;
}

static ULONG caller_room(KazdrinEvent asked)
{
    switch (asked.event) {
    case KZE_READ:
        return asked.len;
    case KZE_LIST:
        return KZ_LIST_BYTES;
    case KZE_QUERY_SIZE:
        return sizeof(FILE_STANDARD_INFORMATION);
    default:
        return 0;
    }
}

KzOp *kz_new_op(uint64_t id, KazdrinEvent asked, KzFile *file, PFLT_VOLUME volume)
{
    KzOp *op = kz_memory(sizeof *op);
    op->id = id;
    op->event = (uint8_t)asked.event;
    op->file = file;
    op->volume = volume;
    op->thread = PsGetCurrentThread();
    op->iopb = kz_take_memory(KZK_DATA, sizeof *op->iopb, 0, 0);
    op->data = kz_new_data(op->thread, op->iopb);
    file->users++;
    kz_scheduler->touch(&file->handle, 0, KZT_TAKES);
    if (asked.event == KZE_CLOSE)
        kz_scheduler->touch(file, 0, KZT_TAKES); /* it comes behind all operations of the file object */
    op->caller_room = caller_room(asked);
    op->process = kz_me->process;
    op->caller = kz_caller_block(op, op->caller_room);
    op->maker = kz_me->number;
    op->request = kz_me->request;
    op->line = kz_me->line_number;
    op->path = *kz_name_now(file) ? kz_kept_text(kz_name_now(file)) : NULL;
    KzOp **place = &kz.ops;
    while (*place && (*place)->maker < op->maker)
        place = &(*place)->next;
    op->next = *place;
    *place = op;
    return op;
}

/* Not before the last callback that looks at it has returned: a drain comes before the operation's turn. */
void kz_forget_op(KzOp *op)
{
    op->stage = KZ_OVER;
    kz_scheduler->touch(&op->stage, 0, op->users ? KZT_GIVES : KZT_TAKES);
    if (op->users)
        return;
    for (KzOp **at = &kz.ops; *at; at = &(*at)->next)
        if (*at == op) {
            *at = op->next;
            break;
        }
    kz_operation_ends(op);
    kz_free_opaque(op);
    kz_free_data(op);
    kz_let_go_file(op->file);
    free(op);
    kz.changes++;
}

/* ---- Turns. */
/* Whether an operation waits in the file system that owes the instance something: its teardown has it drained. */
bool kz_has_waiting(PFLT_INSTANCE instance)
{
    for (const KzOp *op = kz.ops; op; op = op->next)
        for (unsigned at = 0; op->is_waiting && at < op->owed_count; at++)
            if (op->owed[at].instance == instance)
                return true;
    return false;
}

static bool is_closing(const KzOp *op)
{
    return op->event == KZE_CLEANUP || op->event == KZE_CLOSE;
}

static bool is_simple(const KzOp *op)
{
    bool is_event = op->event == KZE_READ || op->event == KZE_WRITE || op->event == KZE_FLUSH || op->event == KZE_QUERY_SIZE || op->event == KZE_CREATE || is_closing(op);
    bool is_for_cache = kz_is_for_cache(op), is_filters = !is_for_cache && (op->own.is_own || op->opaque);
    bool is_others = is_filters || op->own.has_worker || op->users || op->wants || op->is_cancelled || op->is_reopened;
    bool is_plain = op->file->name && !op->file->is_volume && !op->file->is_directory && !kz_is_in_folder(op->volume->id);
    return (is_event || is_for_cache) && !is_others && is_plain && op->maker == kz_me->number && !kz_me->beside;
}

/* It is out of the folder's counts, its locks and its share access go, its handle is none any more, and its flags say so. */
static void use_closing(const KzFile *file)
{
    kz_scheduler->uses(&kz.files, KZU_WRITES);
    kz_scheduler->uses(&file->handle, KZU_WRITES);
    kz_scheduler->uses(&file->object.Flags, KZU_WRITES);
    kz_scheduler->uses(&file->sections, KZU_WRITES);
    kz_scheduler->uses(&file->name->stream->size, KZU_WRITES);
    kz_scheduler->uses(file->name->file, KZU_WRITES);
}

/* Whoever completes it for its holder changes it as well. */
void kz_goes_alone(const KzOp *op)
{
    if (!is_simple(op)) {
        kz_uses_all();
        return;
    }
    kz_uses_own();
    kz_scheduler->uses(op, KZU_READS);
    kz_scheduler->uses(&op->file->users, is_closing(op) ? KZU_WRITES : KZU_ADDS);
    if (is_closing(op))
        use_closing(op->file);
}

/* Whose teardowns the manager looked at: at the file system those of all instances but the one that it came from, and none where the operation is over. */
static void use_phases(const KzOp *op, uint8_t action)
{
    for (size_t at = 0; at < kz.instances_count && action != KZA_DONE; at++)
        if (action != KZA_BASE || kz.instances[at] != op->last)
            kz_scheduler->uses(&kz.instances[at]->torn_down_by, KZU_READS);
}

static Turn turn(KzOp *op)
{
    kz_goes_alone(op);
    kz_scheduler->touch(op, 0, KZT_TAKES); /* behind whoever let it go on */
    KazdrinTold told = {0};
    KazdrinEvent next = {.operation = op->id, .worker = kz_worker()};
    uint32_t status = kazdrin_next(&kz.manager, &next, &told);
    PFLT_INSTANCE instance = told.instance < kz.instances_count ? kz.instances[told.instance] : NULL;
    use_phases(op, status == KZS_OK ? told.action : KZA_HELD);
    if (status != KZS_OK)
        return HELD;
    PVOID completion = (PVOID)(uintptr_t)told.number;
    switch (told.action) {
    case KZA_PRE:
        op->last = instance;
        if (!kz_hears(instance->filter, op)) /* it skips operations of that kind by a flag of its registration */
            kazdrin_pre_returned(&kz.manager, &(KazdrinEvent){.mode = KZV_NO_CALLBACK, .worker = kz_worker()});
        else
            kz_pre(op, instance);
        return GOES;
    case KZA_BASE:
        if (kz_call_base(op))
            return GOES;
        op->is_returning = true;
        kz_tell_outcome(op, STATUS_PENDING);
        op->is_returning = false;
        return HELD;
    case KZA_POST:
        if (op->event == KZE_CLEANUP)
            kz_cleanup_over(op->file); /* a cleanup's turn at the file system is no call */
        kz_post(op, instance, completion);
        return GOES;
    case KZA_DRAIN:
        kz_drain(op, instance, completion);
        kazdrin_post_returned(&kz.manager, &(KazdrinEvent){.mode = KZV_FINISHED, .worker = kz_worker()});
        kz_clean_up();
        return GOES;
    case KZA_MOVED:
        op->last = NULL;
        return GOES;
    case KZA_HELD:
        return HELD;
    default:
        return DONE;
    }
}

static Turn carry(KzOp *op)
{
    Turn made;
    do {
        kz_pause("next");
        made = turn(op);
        if (is_closing(op))
            kz_use_due();
    } while (made == GOES);
    return made;
}

bool kz_is_held(const KzOp *op)
{
    return op->stage == KZ_HELD_BY_PRE || op->stage == KZ_HELD_BY_POST;
}

bool kz_may_be_held(const KzOp *op)
{
    return !op->own.is_fast && !(op->opaque && !(op->opaque->data_flags & FLTFL_CALLBACK_DATA_IRP_OPERATION));
}

static bool is_resumed(void *op)
{
    return ((KzOp *)op)->stage == KZ_RESUMED;
}

/* A client is answered that its operation is held, and goes on. A filter's own is waited for inside the filter's call. */
static bool waits_for(KzOp *op)
{
    const char *side = op->stage == KZ_HELD_BY_POST ? "post" : "pre";
    if (op->own.is_own && !op->own.is_waited_for)
        return false;
    while (op->own.is_waited_for && !is_resumed(op) && kz_let_others())
        ;
    op->is_awaited = true;
    kz_begin_to_fire(); /* a timer's routine may let it go on */
    bool goes_on = kz_wait(is_resumed, op, KZ_OPERATION ", which a %soperation holds", (unsigned long long)op->id, side);
    kz_end_to_fire();
    op->is_awaited = false;
    return goes_on;
}

/* Its own client carries it on, also behind a callback that holds it, if somebody else may let it go on meanwhile. */
static Turn carry_to_end(KzOp *op)
{
    op->runner = kz_me;
    Turn made = carry(op);
    while (made == HELD && !op->is_waiting && waits_for(op)) {
        op->stage = KZ_GOES_ON;
        made = carry(op);
    }
    op->runner = NULL;
    return made;
}

bool kz_carry_to_end(KzOp *op)
{
    return carry_to_end(op) == DONE;
}

/* By whoever came to it, as far as it goes. */
bool kz_carry(KzOp *op)
{
    Turn made;
    op->runner = kz_me;
    do {
        op->stage = KZ_GOES_ON;
        made = carry(op);
    } while (made == HELD && is_resumed(op));
    op->runner = NULL;
    return made == DONE;
}

void kz_tell_held(void)
{
    for (KzOp *op = kz.ops; op; op = op->next) {
        if (!kz_is_held(op))
            continue;
        bool is_pre = op->stage == KZ_HELD_BY_PRE;
        KzPlace before = kz_enter(is_pre ? KZ_IN_PRE : KZ_IN_POST, kz_worker(), op->holder->filter, op->holder, op, NULL);
        kz_me->place.function = op->holder_function;
        kz_tell(KZM_NEVER_COMPLETED, is_pre ? "FltCompletePendedPreOperation" : "FltCompletePendedPostOperation", "never called for an operation that is held");
        kz_me->place = before;
    }
}

void kz_leave_ops(const KzClient *client)
{
    for (KzOp *op = kz.ops; op; op = op->next) {
        if (op->runner != client)
            continue;
        if (op->stage == KZ_IN_PREOPERATION || op->stage == KZ_IN_POSTOPERATION)
            op->iopb->TargetInstance->filter->gave_up = true; /* its callback never returns */
        op->runner = NULL;
        op->own.is_own = true;
        op->own.done = NULL;
        if (op->stage == KZ_RESUMED)
            kz_resume(op);
    }
}

static void free_ops(void)
{
    kz.resumed = NULL;
    while (kz.ops) {
        kz.ops->users = 0;
        kz_forget_op(kz.ops);
    }
    while (kz.files) {
        KzFile *file = kz.files;
        kz.files = file->next;
        kz_let_go_name(file->name);
        if (kz_piece_of(file->object.FileName.Buffer))
            kz_give_back(file->object.FileName.Buffer);
        kz_free_file(file);
    }
}

const KzModule kz_operation_module = {.free = free_ops};
