/* Waits: for one of several objects or all of them, or for a time. */
#include "core/client.h"
#include "core/clock.h"
#include "core/held.h"
#include "core/module.h"
#include "core/op.h"
#include "core/pointer.h"
#include "core/told.h"
#include "manager/filter.h"
#include "manager/operation.h"
#include "kit/dispatcher.h"
#include "kit/thread.h"
#include "kit/timer.h"

/* It is signalled, and is taken. */
static void take(PDISPATCHER_HEADER object, const char *call)
{
    if (object->Type == KZ_MUTANT) {
        KzTake(object, KZ_AGAIN | KZ_IN_REGION, PASSIVE_LEVEL, call); /* the kernel disables APCs of who owns it */
        object->SignalState = 0;
        return;
    }
    kz_scheduler->touch(object, 0, KZT_TAKES);
    if (object->Type == KZ_SEMAPHORE)
        object->SignalState--;
    else if (object->Type == KZ_EVENT_RESETS || object->Type == KZ_TIMER_RESETS)
        object->SignalState = 0;
}

static LONGLONG units_of(PLARGE_INTEGER timeout)
{
    return timeout->QuadPart <= 0 ? -timeout->QuadPart : timeout->QuadPart - KZ_BEGINS - kz.passed;
}

static bool is_signalled(const DISPATCHER_HEADER *object)
{
    return object->Type == KZ_MUTANT ? !kz_is_taken(object) : object->SignalState > 0;
}

/* What a client waits for: one of several objects, or all of them at once. */
typedef struct {
    ULONG count;
    PVOID *objects;
    bool is_all;
    KzOp *op; /* whose cancelling ends the wait */
    const char *call;
} Awaited;

static ULONG first_signalled(const Awaited *one)
{
    ULONG at = 0;
    while (at < one->count && !is_signalled(one->objects[at]))
        at++;
    return at;
}

static bool are_signalled(const Awaited *one)
{
    ULONG signalled = 0;
    for (ULONG at = 0; at < one->count; at++)
        signalled += is_signalled(one->objects[at]);
    return one->is_all ? signalled == one->count : signalled > 0;
}

static bool is_wait_over(void *awaited)
{
    const Awaited *one = awaited;
    return (one->op && one->op->cancel.is_asked) || are_signalled(one);
}

/* Of several the first that is signalled, or all; a wait that was cancelled takes none. */
static NTSTATUS take_awaited(const Awaited *one)
{
    if (one->op && one->op->cancel.is_asked) {
        kz_scheduler->touch(&one->op->cancel, 0, KZT_TAKES);
        return STATUS_CANCELLED;
    }
    ULONG first = one->is_all ? 0 : first_signalled(one), last = one->is_all ? one->count : first + 1;
    for (ULONG at = first; at < last; at++)
        take(one->objects[at], one->call);
    return (NTSTATUS)first;
}

/* Whoever has the mutex that it waits for. */
static const KzClient *owner_of(const void *mutex)
{
    return kz_holder_of(mutex);
}

/* Beside other clients it waits for one of them, or for as long as it is to. */
static NTSTATUS wait_beside(Awaited *one, LONGLONG units)
{
    kz_me->timeout = units > 0 ? (uint64_t)(units / KZ_MILLISECOND) + 1 : 0;
    kz_begin_to_fire();
    if (one->count == 1 && ((const DISPATCHER_HEADER *)one->objects[0])->Type == KZ_MUTANT)
        kz_waits_for_owner(owner_of, one->objects[0], false);
    const char *which = one->count < 2 ? "" : one->is_all ? ", of all its objects" : ", of any of its objects";
    bool is_late = (kz_me->timeout && kz_scheduler->choose(2, KZ_CHOICE_TIME, "the time is over")) || !kz_wait(is_wait_over, one, "%s%s", one->call, which);
    kz_me->timeout = 0;
    kz_end_to_fire();
    return is_late ? STATUS_TIMEOUT : take_awaited(one);
}

/* Of these the kit's initialization is known; memory that was never initialized looks like one of them, or like nothing. */
static bool is_known(const DISPATCHER_HEADER *object)
{
    return object->Type <= KZ_SEMAPHORE || object->Type == KZ_TIMER_KEEPS || object->Type == KZ_TIMER_RESETS || object->Type > 64;
}

/* A driver with nothing but an unload has no code that another thread could run. */
static bool has_no_callback(const FLT_REGISTRATION *one)
{
    bool is_called = one->OperationRegistration && one->OperationRegistration->MajorFunction != IRP_MJ_OPERATION_END;
    return !is_called && !one->InstanceSetupCallback && !one->InstanceQueryTeardownCallback && !one->InstanceTeardownStartCallback && !one->InstanceTeardownCompleteCallback;
}

/* Whether no other code of the driver can run: before it starts filtering, or behind its end, with nothing of its own beside. So what it waits for never comes, on Windows too. */
static bool is_alone(PFLT_FILTER filter)
{
    bool is_beginning = kz_me->place.callback == KZ_IN_ENTRY && !filter->is_started;
    bool is_over = kz_me->place.callback == KZ_IN_UNLOAD && (kz_filter_phase(filter) == KZP_FILTER_NOT_LOADED || has_no_callback(&filter->registration));
    return (is_beginning || is_over) && !kz_has_any_of(filter);
}

/* After its end a driver has its threads alone, and all of them wait. */
static bool is_among_threads(PFLT_FILTER filter)
{
    return kz_me->place.callback == KZ_IN_UNLOAD && kz_filter_phase(filter) == KZP_FILTER_NOT_LOADED && !kz_has_any_but(filter, &kz_thread_module);
}

/* Whether one of these is on the thread's own stack, or in memory of its own, and nothing of the driver's leads there. */
static bool is_unreachable(const Awaited *one)
{
    bool is_lonely = false;
    for (const KzOp *op = kz.ops; op; op = op->next)
        if (op != kz_me->place.op) /* what goes to its postoperation isn't known */
            return false;
    for (ULONG at = 0; at < one->count; at++) {
        if (kz_is_pointed_to(one->objects[at]))
            return false;
        is_lonely = true;
    }
    return is_lonely && !kz_has_any_of(kz_me->place.filter);
}

static const char *endless(const Awaited *one, PFLT_FILTER filter, char *room, size_t size)
{
    const char *waits = kz_waits_for_mine();
    if (waits) {
        snprintf(room, size, "%s waits for a lock that this thread holds, and nobody else runs", waits);
        return room;
    }
    if (is_alone(filter))
        return "no other code of the driver can run, and set it";
    if (is_among_threads(filter))
        return "the driver's threads wait too, and no other code of it can run";
    return is_unreachable(one) ? "nothing of the driver's leads to it, so nobody can set it" : NULL;
}

static void tell_endless(const Awaited *one)
{
    char room[160];
    PFLT_FILTER filter = kz_me->place.filter;
    const char *why = filter ? endless(one, filter, room, sizeof room) : NULL;
    if (!why) {
        kz_tell(KZM_NOBODY_SETS, one->call, "nobody else runs here who would set it: the wait ends with STATUS_TIMEOUT");
        return;
    }
    kz_tell(KZM_WAITS_FOR_EVER, one->call, "%s: it would wait for ever", why);
    filter->gave_up = true; /* what it does behind it, it never does */
}

/* Alone it has what else is here go on, work items and timers, until it may go on itself. */
static NTSTATUS wait_alone(Awaited *one, PLARGE_INTEGER timeout)
{
    while (kz_let_others())
        if (is_wait_over(one))
            return take_awaited(one);
    for (LONGLONG until = timeout ? kz.passed + units_of(timeout) : kz.passed + 3600 * 1000 * KZ_MILLISECOND; kz_passes(until);) {
        while (kz_let_others())
            ;
        if (is_wait_over(one))
            return take_awaited(one);
    }
    if (timeout)
        kz_pass_units(units_of(timeout));
    else
        tell_endless(one);
    return STATUS_TIMEOUT;
}

static NTSTATUS wait_for(Awaited *one, PLARGE_INTEGER timeout)
{
    kz_pay_wait();
    for (ULONG at = 0; at < one->count; at++)
        if (is_known(one->objects[at]))
            kz_check_dispatcher(one->objects[at], "an object", one->call);
    if (is_wait_over(one))
        return take_awaited(one);
    if (timeout && units_of(timeout) <= 0) {
        kz_scheduler->looked(one->objects[0], kz_me->place.from);
        return STATUS_TIMEOUT;
    }
    if (KeGetCurrentIrql() > APC_LEVEL)
        kz_tell(KZM_IRQL, one->call, "a wait at IRQL %u", KeGetCurrentIrql());
    return kz_has_others() ? wait_beside(one, timeout ? units_of(timeout) : 0) : wait_alone(one, timeout);
}

/* A thread that waits for a program's sake may have its stack paged out. */
static void check_mode(const void *object, KPROCESSOR_MODE mode, const void *frame, const char *call)
{
    enum { STACK = 24 * 1024 };
    if (mode == UserMode && (uintptr_t)object - (uintptr_t)frame < STACK)
        kz_tell_of(object, KZM_PAGED_OBJECT, call, "with UserMode for an object on the stack, which may be paged out meanwhile");
}

NTSTATUS KeWaitForSingleObject(PVOID Object, KWAIT_REASON WaitReason, KPROCESSOR_MODE WaitMode, BOOLEAN Alertable, PLARGE_INTEGER Timeout)
{
    KZ_CALL();
    (void)WaitReason, (void)Alertable;
    check_mode(Object, WaitMode, __builtin_frame_address(0), __func__);
    return wait_for(&(Awaited){1, &Object, false, NULL, __func__}, Timeout);
}

/* The same, which the cancelling of the callback's operation ends. */
NTSTATUS FltCancellableWaitForSingleObject(PVOID Object, PLARGE_INTEGER Timeout, PFLT_CALLBACK_DATA CallbackData)
{
    KZ_CALL();
    return wait_for(&(Awaited){1, &Object, false, CallbackData ? kz_op_with(CallbackData) : NULL, __func__}, Timeout);
}

static NTSTATUS wait_for_several(ULONG count, PVOID *objects, WAIT_TYPE type, PLARGE_INTEGER timeout, KzOp *op, const char *call)
{
    if (!count || count > MAXIMUM_WAIT_OBJECTS)
        return STATUS_INVALID_PARAMETER;
    return wait_for(&(Awaited){count, objects, type != WaitAny, op, call}, timeout);
}

NTSTATUS KeWaitForMultipleObjects(ULONG Count, PVOID Object[], WAIT_TYPE WaitType, KWAIT_REASON WaitReason, KPROCESSOR_MODE WaitMode, BOOLEAN Alertable,
                                  PLARGE_INTEGER Timeout, PVOID WaitBlockArray)
{
    KZ_CALL();
    (void)WaitReason, (void)WaitMode, (void)Alertable, (void)WaitBlockArray;
    return wait_for_several(Count, Object, WaitType, Timeout, NULL, __func__);
}

NTSTATUS FltCancellableWaitForMultipleObjects(ULONG Count, PVOID ObjectArray[], WAIT_TYPE WaitType, PLARGE_INTEGER Timeout, PVOID WaitBlockArray,
                                              PFLT_CALLBACK_DATA CallbackData)
{
    KZ_CALL();
    (void)WaitBlockArray;
    return wait_for_several(Count, ObjectArray, WaitType, Timeout, CallbackData ? kz_op_with(CallbackData) : NULL, __func__);
}

static bool never(void *unused)
{
    (void)unused;
    return false;
}

NTSTATUS KeDelayExecutionThread(KPROCESSOR_MODE WaitMode, BOOLEAN Alertable, PLARGE_INTEGER Interval)
{
    KZ_CALL();
    (void)WaitMode, (void)Alertable;
    kz_me->timeout = (uint64_t)(units_of(Interval) > 0 ? units_of(Interval) / KZ_MILLISECOND : 0) + 1;
    kz_wait(never, NULL, "KeDelayExecutionThread");
    kz_me->timeout = 0;
    while (kz_let_others())
        ;
    if (!kz_me->beside)
        kz_pass_units(units_of(Interval));
    return STATUS_SUCCESS;
}
