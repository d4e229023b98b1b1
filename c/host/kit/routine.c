/* Routines that a driver registers for processes, threads, images, keys and handles. */
#include "kit/routine.h"

#include "core/client.h"
#include "core/memory.h"
#include "core/module.h"
#include "core/place.h"
#include "core/state.h"
#include "core/told.h"
#include "manager/altitude.h"
#include "manager/context.h"
#include "manager/hand.h"

#include <stdlib.h>

struct KzRoutineState {
    KzRoutine *first;
    uint64_t last; /* number */
};

/* ---- Registering. */
KzRoutine *kz_routine_of(KzRoutineKind kind, PVOID routine)
{
    KzRoutine *one = kz.routine->first;
    while (one && !(one->kind == kind && one->routine == routine && !one->is_gone))
        one = one->next;
    return one;
}

/* Behind those of its kind that are higher; one without an altitude behind all. */
static KzRoutine **place_for(const KzRoutine *wanted, bool *is_taken)
{
    KzRoutine **at = &kz.routine->first;
    *is_taken = false;
    for (; *at; at = &(*at)->next) {
        if ((*at)->is_gone || (*at)->kind != wanted->kind || !*wanted->altitude || !*(*at)->altitude)
            continue;
        int side = kz_compare_altitudes(wanted->altitude, (*at)->altitude);
        *is_taken |= side == 0;
        if (side >= 0)
            break;
    }
    return at;
}

NTSTATUS kz_add_routine(const KzRoutine *wanted, const char *call, KzRoutine **made)
{
    bool is_taken;
    KzRoutine **at = place_for(wanted, &is_taken), *behind = *at;
    if (wanted->kind != KZR_REGISTRY && kz_routine_of(wanted->kind, wanted->routine))
        return STATUS_INVALID_PARAMETER;
    if (is_taken)
        return STATUS_FLT_INSTANCE_ALTITUDE_COLLISION;
    if (kz_refuses(KZ_CHOICE_POOL, call))
        return STATUS_INSUFFICIENT_RESOURCES;
    KzRoutine *one = kz_memory(sizeof *one);
    *one = *wanted;
    one->next = behind;
    one->filter = kz_me->place.filter;
    one->place = kz_me->place;
    one->number = ++kz.routine->last;
    *at = one;
    kz_scheduler->touch(one->routine, 0, KZT_GIVES);
    if (made)
        *made = one;
    return STATUS_SUCCESS;
}

static void drop(KzRoutine **at)
{
    KzRoutine *gone = *at;
    *at = gone->next;
    if (gone->kind == KZR_OBJECT)
        free(gone->context);
    free(gone);
}

static bool has_returned(void *routine)
{
    return ((KzRoutine *)routine)->running == 0;
}

void kz_take_off_routine(KzRoutine *gone)
{
    KzRoutine **at = &kz.routine->first;
    gone->is_gone = true;
    kz_wait_for(has_returned, gone, -1, "a notify routine to return");
    kz_scheduler->touch(gone, 0, KZT_TAKES);
    while (*at != gone)
        at = &(*at)->next;
    drop(at);
}

/* ---- Calling them. */
void kz_callees(KzRoutineKind first, KzRoutineKind last, KzCallees *callees)
{
    callees->count = 0;
    for (KzRoutine *one = kz.routine->first; one; one = one->next)
        if (one->kind >= first && one->kind <= last && !one->is_gone && callees->count < KZ_MOST_ROUTINES)
            callees->numbers[callees->count++] = one->number;
}

KzRoutine *kz_callee(const KzCallees *callees, unsigned at)
{
    KzRoutine *one = kz.routine->first;
    while (one && (one->number != callees->numbers[at] || one->is_gone))
        one = one->next;
    return one;
}

KzRoutineCall kz_begin_routine(KzRoutine *one, const void *function)
{
    KzRoutineCall call = {.one = one, .worker = kz_helper()};
    call.before = kz_enter(KZ_IN_NOTIFY, call.worker, one->filter, NULL, NULL, NULL);
    kz_call_at(PASSIVE_LEVEL);
    kz_scheduler->touch(one->routine, 0, KZT_TAKES);
    one->running++;
    call.depth = kz_let_function("notify routine", function);
    return call;
}

void kz_end_routine(KzRoutineCall *call)
{
    kz_driver_returned(call->depth, "notify routine returns");
    call->one->running--;
    kz.changes++;
    kz_scheduler->touch(call->one, 0, KZT_GIVES);
    kz_keep_rest(NULL);
    kz_leave(call->before);
    kz_helped(call->worker);
    kz_clean_up();
}

/* ---- A filter is unloaded, and a run ends. */
static bool has_routines_of(PFLT_FILTER filter)
{
    const KzRoutine *one = kz.routine->first;
    while (one && one->filter != filter)
        one = one->next;
    return one != NULL;
}

static void tell_routines(PFLT_FILTER filter)
{
    static const char *const calls[] = {"PsSetCreateProcessNotifyRoutine", "PsSetCreateProcessNotifyRoutineEx", "PsRemoveCreateThreadNotifyRoutine", "PsRemoveLoadImageNotifyRoutine",
                                        "CmUnRegisterCallback", "ObUnRegisterCallbacks"};
    for (KzRoutine **at = &kz.routine->first; *at;) {
        KzRoutine *one = *at;
        if (one->filter != filter) {
            at = &one->next;
            continue;
        }
        KzPlace before = kz_enter_again(&one->place);
        kz_tell(KZM_ROUTINE_LEFT, calls[one->kind], "a routine that was registered here is never taken off: it would be called in a driver that is gone");
        kz_me->place = before;
        drop(at);
    }
}

static void free_routines(void)
{
    while (kz.routine->first)
        drop(&kz.routine->first);
}

const KzModule kz_routine_module = {KZ_STATE(routine), .free = free_routines, .filter_ends = tell_routines, .has_any_of = has_routines_of};
