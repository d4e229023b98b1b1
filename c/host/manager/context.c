/* Contexts. A context's body is memory of the host; the manager's body is the address of its header, and the manager alone decides when no object and no callback has it.
 *
 * The manager knows references of the callback that runs, and lets go of what that leaves behind. A driver may keep one longer, in a list or in a structure that goes to
 * its postoperation: then the host keeps it for the driver, and the context isn't cleaned up before it was released. What is never released is told at the filter's end,
 * with the callback that left it behind. */
#include "manager/context.h"

#include "core/access.h"
#include "core/client.h"
#include "core/memory.h"
#include "core/module.h"
#include "core/piece.h"
#include "core/place.h"
#include "core/state.h"
#include "core/status.h"
#include "core/told.h"
#include "core/unwritten.h"
#include "manager/registration.h"
#include "manager/taken.h"

#include <stdlib.h>

/* How many headers of contexts that were cleaned up are remembered, to tell their use. */
#define REMEMBERED 256

enum { PLACES = 1 << 12 };

struct KzContextState {
    KzContext *live;
    /* All that are live by their bodies' addresses, and those that the manager knows by their slots. */
    KzContext *places[PLACES], **slots;
    size_t known; /* by the manager: without one none is ever due */
    uint64_t cleaned;
    size_t slots_room;
    KzContext dead[REMEMBERED];
    size_t dead_next;
};

const char *const kz_context_kinds[] = {"a volume", "an instance", "a stream", "a stream handle", "a section", "a file", "a transaction"};

/* ---- Finding. */
static KzContext **place_of(PVOID body)
{
    return &kz.context->places[((uintptr_t)body * 0x9e3779b97f4a7c15ULL) >> 52];
}

KzContext *kz_context_with(PVOID body)
{
    KzContext *one = *place_of(body);
    while (one && one->body != body)
        one = one->same;
    return one;
}

static void enter_tables(KzContext *one)
{
    KzContext **place = place_of(one->body);
    one->same = *place;
    *place = one;
    one->next = kz.context->live;
    if (kz.context->live)
        kz.context->live->before = one;
    kz.context->live = one;
}

static void leave_tables(KzContext *one)
{
    KzContext **at = place_of(one->body);
    while (*at != one)
        at = &(*at)->same;
    *at = one->same;
    *(one->before ? &one->before->next : &kz.context->live) = one->next;
    if (one->next)
        one->next->before = one->before;
}

static void enter_slot(KzContext *one)
{
    if (one->slot >= kz.context->slots_room) {
        size_t room = kz.context->slots_room ? kz.context->slots_room : 64;
        while (room <= one->slot)
            room *= 2;
        KzContext **larger = kz_memory(room * sizeof *larger);
        if (kz.context->slots)
            memcpy(larger, kz.context->slots, kz.context->slots_room * sizeof *larger);
        free(kz.context->slots);
        kz.context->slots = larger;
        kz.context->slots_room = room;
    }
    kz.context->slots[one->slot] = one;
}

/* The context with that body. A body that was freed, or that is none, is told. */
KzContext *kz_context_of(PVOID body, const char *call)
{
    KzContext *found = kz_context_with(body);
    if (found)
        return found;
    for (size_t at = 0; at < REMEMBERED; at++)
        if (body && kz.context->dead[at].body == body) {
            kz_tell(KZM_CLEANED_UP, call, "%s context that was cleaned up", kz_context_kinds[kz.context->dead[at].kind]);
            return NULL;
        }
    kz_tell(KZM_NO_CONTEXT_THERE, call, "no context");
    return NULL;
}

KzContext *kz_known_context(uint32_t slot, uint32_t generation)
{
    KzContext *one = slot < kz.context->slots_room ? kz.context->slots[slot] : NULL;
    return one && one->is_known && one->generation == generation ? one : NULL;
}

PVOID kz_body_of(uint32_t slot, uint32_t generation)
{
    KzContext *one = kz_known_context(slot, generation);
    return one ? one->body : NULL;
}

/* The same, for a callback that gets a reference. */
PVOID kz_taken_body(uint32_t slot, uint32_t generation)
{
    KzContext *one = kz_known_context(slot, generation);
    if (one) {
        kz_scheduler->touch(one, 0, KZT_TAKES);
        kz_note_taken(one->body);
    }
    return one ? one->body : NULL;
}

/* ---- References that the host keeps. */
void kz_keep_reference(KzContext *context, const KzPlace *place)
{
    KzLeft *made = kz_memory(sizeof *made);
    *made = (KzLeft){context->kept, *place};
    context->kept = made;
}

void kz_drop_reference(KzContext *context)
{
    KzLeft *gone = context->kept;
    context->kept = gone->next;
    free(gone);
}

/* ---- The end of a context: its filter's cleanup callback is called, and then its memory is freed. */
static void finish(KzContext *context, uint8_t worker)
{
    KzPlace before = kz_enter(KZ_IN_CLEANUP, worker, context->filter, NULL, NULL, NULL);
    kz_call_at(PASSIVE_LEVEL); /* as in the kit: it is put off where the IRQL is too high for it */
    context->is_in_cleanup = true;
    kz_scheduler->touch(context, 0, KZT_TAKES);
    if (context->how->ContextCleanupCallback) {
        unsigned depth = kz_let_driver("context cleanup", context->how->ContextCleanupCallback);
        KZ_CALL_DRIVER(context->how->ContextCleanupCallback, context->body, context->type);
        kz_driver_returned(depth, "context cleanup returns");
    }
    kz_uses_little(); /* nobody else has it */
    kz_scheduler->uses(context, KZU_WRITES);
    kz_leave(before);
    leave_tables(context);
    if (context->how->ContextFreeCallback)
        KZ_CALL_DRIVER(context->how->ContextFreeCallback, context->body, context->type);
    else
        kz_give_back(context->body);
    kz.context->dead[kz.context->dead_next] = *context;
    kz.context->dead_next = (kz.context->dead_next + 1) % REMEMBERED;
    while (context->kept)
        kz_drop_reference(context);
    free(context);
}

void kz_end_unused(KzContext *context)
{
    if (!context->kept && !context->is_known && !context->is_linked)
        finish(context, kz_worker());
}

/* The next one that is due in the manager; NULL if none is. Its body there is the header's address. */
static KzContext *take_due(uint8_t worker)
{
    KzContext *context = NULL;
    KzTold due = kz_event_into(worker, (KazdrinEvent){.event = KZE_TAKE_DUE}, (uint8_t *)&context, sizeof context);
    return due.status == KZS_OK && due.told.has ? context : NULL;
}

/* Whoever comes to what is due cleans it up. Nothing is being cleaned up by this worker: the event comes to nothing, and says whether anything is due. */
void kz_use_due(void)
{
    if (kz.context->known && kz_event(kz_worker(), (KazdrinEvent){.event = KZE_CLEANED}).told.due)
        kz_scheduler->uses(&kz.context, KZU_WRITES);
}

/* What is due in the manager: another worker takes it. As in the kit, it is called inside the call that gave up the last reference. */
void kz_clean_up(void)
{
    kz_scheduler->uses(&kz.context, KZU_READS);
    if (!kz.context->known)
        return;
    bool is_known = kz_me->is_known;
    uint8_t worker = kz_helper();
    KzContext *context = take_due(worker);
    while (context) {
        kz_scheduler->uses(&kz.context, KZU_WRITES);
        kz_scheduler->uses(context, KZU_WRITES);
        context->is_known = false;
        kz.context->known--;
        kz.context->slots[context->slot] = NULL;
        if (!context->kept)
            finish(context, worker);
        kz_scheduler->uses(&kz.context, KZU_WRITES);
        KzTold cleaned = kz_event(worker, (KazdrinEvent){.event = KZE_CLEANED});
        kz.context->cleaned++;
        kz.changes++;
        context = cleaned.told.due ? take_due(worker) : NULL;
    }
    kz_helped(worker);
    kz_me->is_known = is_known; /* who called this goes on */
}

uint64_t kz_cleaned(void)
{
    return kz.context->cleaned;
}

/* ---- Allocation. */
static PVOID new_body(const FLT_CONTEXT_REGISTRATION *how, SIZE_T size, POOL_TYPE pool)
{
    if (how->ContextAllocateCallback)
        return KZ_CALL_DRIVER(how->ContextAllocateCallback, pool, size, how->ContextType);
    PVOID made = kz_take_memory(KZK_CONTEXT, size, kz_unwritten(0xcc), how->PoolTag); /* as in the kit, it isn't zeroed */
    if (pool & PagedPool)
        kz_own(made, KZ_PAGED, 0);
    return made;
}

/* The manager gets to know a context, and the callback holds it. */
uint32_t kz_make_known(KzContext *context)
{
    KzTold made = kz_event_with(kz_worker(), (KazdrinEvent){.event = KZE_ALLOCATE, .kind = context->kind}, &context, sizeof context);
    if (made.status == KZS_OK) {
        context->slot = made.told.slot;
        context->generation = made.told.generation;
        context->is_known = true;
        kz.context->known++;
        enter_slot(context);
        kz_note_taken(context->body);
    }
    return made.status;
}

NTSTATUS FltAllocateContext(PFLT_FILTER Filter, FLT_CONTEXT_TYPE ContextType, SIZE_T ContextSize, POOL_TYPE PoolType, PFLT_CONTEXT *ReturnedContext)
{
    KZ_INSIDE();
    *ReturnedContext = NULL;
    if (!Filter || Filter != kz_me->place.filter || !Filter->is_registered) {
        kz_tell(KZM_OTHER_FILTER, __func__, "of a filter that isn't the callback's own");
        return STATUS_INVALID_PARAMETER;
    }
    const FLT_CONTEXT_REGISTRATION *how = kz_registered_context(Filter, ContextType, ContextSize);
    if (!how)
        return STATUS_FLT_CONTEXT_ALLOCATION_NOT_FOUND;
    if (ContextType == FLT_VOLUME_CONTEXT && PoolType == PagedPool)
        return STATUS_INVALID_PARAMETER;
    PVOID body = kz_refuses(KZ_CHOICE_CONTEXT, __func__) ? NULL : new_body(how, ContextSize, PoolType);
    if (!body)
        return STATUS_INSUFFICIENT_RESOURCES;
    KzContext *made = kz_memory(sizeof *made);
    *made = (KzContext){.body = body, .kind = kz_context_kind(ContextType), .type = ContextType, .filter = Filter, .how = how};
    enter_tables(made);
    uint32_t status = made->kind > 3 ? KZS_WRONG_STEP : kz_make_known(made); /* the manager has none of sections, files and transactions: the host alone counts their references */
    if (status == KZS_OK && !how->ContextAllocateCallback)
        kz_uses_little();
    if (status == KZS_WRONG_STEP || status == KZS_HAND_FULL) {
        kz_keep_reference(made, &kz_me->place); /* in no callback of an instance, or where 16 are held: the manager gets to know it once it is set */
    } else if (status != KZS_OK) {
        leave_tables(made);
        if (how->ContextFreeCallback)
            KZ_CALL_DRIVER(how->ContextFreeCallback, body, ContextType);
        else
            kz_give_back(body);
        free(made);
        kz_tell_refused(__func__, status);
        return kz_ntstatus(status);
    }
    *ReturnedContext = body;
    return STATUS_SUCCESS;
}

/* ---- Counting. */
VOID FltReferenceContext(PFLT_CONTEXT Context)
{
    KZ_CALL();
    KzContext *context = kz_context_of(Context, __func__);
    if (!context)
        return;
    bool is_counted =
        context->is_known && kz_event(kz_worker(), (KazdrinEvent){.event = KZE_REFERENCE, .slot = context->slot, .generation = context->generation}).status == KZS_OK;
    if (is_counted)
        kz_note_taken(context->body);
    else
        kz_keep_reference(context, &kz_me->place);
}

/* The worker gives back a reference that it holds: false if it holds none. The manager says whether something is due then. */
static bool release(uint8_t worker, const KzContext *context)
{
    kz_scheduler->uses(&kz.context, KZU_READS);
    KzTold released = kz_event(worker, (KazdrinEvent){.event = KZE_RELEASE, .slot = context->slot, .generation = context->generation});
    if (released.status == KZS_OK)
        kz_forget_taken(context->body);
    if (released.status == KZS_OK && released.told.due)
        kz_clean_up();
    return released.status == KZS_OK;
}

/* A reference that a callback which runs handed on, to a work item say: whoever got it gives it back. Until the callback returns the manager has it in that callback's hand. */
bool kz_holds(uint8_t worker, const KzContext *context)
{
    KazdrinCounts counts = {0};
    if (kazdrin_counts(&kz.manager, &(KazdrinEvent){.worker = worker}, &counts) != KZS_OK)
        return false;
    for (uint32_t place = 0; place < counts.held; place++) {
        KazdrinTold told = {0};
        kazdrin_held_at(&kz.manager, &(KazdrinEvent){.len = place, .worker = worker}, &told);
        if (told.has && told.slot == context->slot && told.generation == context->generation)
            return true;
    }
    return false;
}

static bool released_elsewhere(const KzContext *context)
{
    for (uint8_t worker = 0; context->is_known && worker < KZ_WORKERS; worker++)
        if (worker != kz_worker() && kz_holds(worker, context))
            return release(worker, context);
    return false;
}

VOID FltReleaseContext(PFLT_CONTEXT Context)
{
    KZ_CALL();
    KzContext *context = kz_context_of(Context, __func__);
    if (!context)
        return;
    if (context->is_in_cleanup) {
        kz_tell(KZM_OWN_CLEANUP, __func__, "%s context in its own cleanup callback", kz_context_kinds[context->kind]);
        return;
    }
    kz_scheduler->touch(context, 0, KZT_GIVES);
    if (context->is_known) {
        kz_uses_little(); /* one reference less */
        if (release(kz_worker(), context))
            return;
        kz_uses_all();
    }
    if (!context->kept && released_elsewhere(context))
        return;
    if (!context->kept) {
        kz_tell(KZM_RELEASED_TWICE, __func__, "%s context to which no reference is held (released twice?)", kz_context_kinds[context->kind]);
        return;
    }
    kz_drop_reference(context);
    kz_end_unused(context);
}

/* ---- The end of a filter, and of a run. */
static void tell_leaks(KzContext *context)
{
    for (KzLeft *kept = context->kept; kept; kept = kept->next) {
        KzPlace before = kz_enter_again(&kept->place);
        kz_tell(KZM_LEAK, "FltReleaseContext", "never called for a reference to %s context", kz_context_kinds[context->kind]);
        kz_me->place = before;
        kz.counts.leaked++;
    }
}

static KzContext *told_and_kept(PFLT_FILTER filter)
{
    for (KzContext *one = kz.context->live; one; one = one->next)
        if (one->filter == filter && one->is_told && one->kept && !one->is_known)
            return one;
    return NULL;
}

/* A filter ends: what it kept it never released. Its cleanup callbacks are called all the same, so that what the contexts hold isn't told once more; what those allocate
 * and leave is told, and no more. */
void kz_tell_kept(PFLT_FILTER filter)
{
    for (KzContext *one = kz.context->live; one; one = one->next)
        if (one->filter == filter && one->kept && !one->is_told) {
            one->is_told = true;
            tell_leaks(one);
        }
    for (KzContext *one = told_and_kept(filter); one; one = told_and_kept(filter)) {
        while (one->kept)
            kz_drop_reference(one);
        finish(one, kz_worker());
    }
    for (KzContext *one = kz.context->live; one; one = one->next)
        if (one->filter == filter && one->kept && !one->is_told) {
            one->is_told = true;
            tell_leaks(one);
            while (one->kept)
                kz_drop_reference(one);
        }
}

static void free_contexts(void)
{
    while (kz.context->live) {
        KzContext *one = kz.context->live;
        kz.context->live = one->next;
        while (one->kept)
            kz_drop_reference(one);
        if (one->how->ContextFreeCallback)
            KZ_CALL_DRIVER(one->how->ContextFreeCallback, one->body, one->type);
        free(one);
    }
    free(kz.context->slots);
}

const KzModule kz_context_module = {KZ_STATE(context), .free = free_contexts, .filter_ends = kz_tell_kept};
