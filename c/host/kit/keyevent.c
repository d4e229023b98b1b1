/* Callbacks of the registry: each is told before a key is touched, from the highest altitude down, and those that let it go on are told after it, the other way round. */
#include "kit/keyevent.h"

#include "core/client.h"
#include "core/memory.h"
#include "lib/letters.h"
#include "kit/key.h"
#include "kit/routine.h"

#include <stdlib.h>

/* ---- What a callback keeps beside a key. */
static NTSTATUS call(KzRoutine *one, REG_NOTIFY_CLASS class, PVOID information)
{
    PEX_CALLBACK_FUNCTION function = (PEX_CALLBACK_FUNCTION)one->routine;
    PVOID context = one->context;
    KzRoutineCall made = kz_begin_routine(one, function);
    NTSTATUS status = KZ_CALL_DRIVER(function, context, (PVOID)(ULONG_PTR)class, information);
    kz_end_routine(&made);
    return status;
}

static KzKeyContext **context_of(KzKey *key, uint64_t number)
{
    KzKeyContext **at = &key->contexts;
    while (*at && (*at)->number != number)
        at = &(*at)->next;
    return at;
}

static PVOID kept_of(KzKey *key, const KzRoutine *one)
{
    const KzKeyContext *kept = key ? *context_of(key, one->number) : NULL;
    return kept ? kept->context : NULL;
}

static PVOID take(KzKeyContext **at)
{
    KzKeyContext *gone = *at;
    if (!gone)
        return NULL;
    PVOID context = gone->context;
    *at = gone->next;
    free(gone);
    return context;
}

NTSTATUS CmSetCallbackObjectContext(PVOID Object, PLARGE_INTEGER Cookie, PVOID NewContext, PVOID *OldContext)
{
    KZ_CALL();
    const KzCallees callees = {{(uint64_t)Cookie->QuadPart}, 1};
    KzKey *key = kz_is_key(Object);
    KzRoutine *one = kz_callee(&callees, 0);
    if (!key || !one || one->kind != KZR_REGISTRY)
        return STATUS_INVALID_PARAMETER;
    PVOID old = take(context_of(key, one->number));
    if (OldContext)
        *OldContext = old;
    if (!NewContext)
        return STATUS_SUCCESS;
    KzKeyContext *made = kz_memory(sizeof *made);
    *made = (KzKeyContext){key->contexts, one->number, NewContext};
    key->contexts = made;
    return STATUS_SUCCESS;
}

static void give_back(KzKey *key, KzRoutine *one)
{
    REG_CALLBACK_CONTEXT_CLEANUP_INFORMATION information = {.Object = key, .ObjectContext = take(context_of(key, one->number))};
    if (information.ObjectContext)
        call(one, RegNtCallbackObjectContextCleanup, &information);
}

void kz_give_back_contexts(struct KzKey *key)
{
    while (key->contexts) {
        const KzCallees callees = {{key->contexts->number}, 1};
        KzRoutine *one = kz_callee(&callees, 0);
        if (one)
            give_back(key, one);
        else
            take(&key->contexts);
    }
}

/* ---- Registering. */
NTSTATUS CmRegisterCallbackEx(PEX_CALLBACK_FUNCTION Function, PCUNICODE_STRING Altitude, PVOID Driver, PVOID Context, PLARGE_INTEGER Cookie, PVOID Reserved)
{
    KZ_CALL();
    (void)Driver;
    KzRoutine *made, wanted = {.kind = KZR_REGISTRY, .routine = (PVOID)Function, .context = Context};
    if (!Function || Reserved)
        return STATUS_INVALID_PARAMETER;
    if (Altitude)
        kz_narrow(wanted.altitude, sizeof wanted.altitude, Altitude);
    NTSTATUS status = kz_add_routine(&wanted, __func__, &made);
    if (NT_SUCCESS(status))
        Cookie->QuadPart = (LONGLONG)made->number;
    return status;
}

/* The older one has no altitude: it is called behind those that have one. */
NTSTATUS CmRegisterCallback(PEX_CALLBACK_FUNCTION Function, PVOID Context, PLARGE_INTEGER Cookie)
{
    return CmRegisterCallbackEx(Function, NULL, NULL, Context, Cookie, NULL);
}

NTSTATUS CmUnRegisterCallback(LARGE_INTEGER Cookie)
{
    KZ_CALL();
    const KzCallees callees = {{(uint64_t)Cookie.QuadPart}, 1};
    KzRoutine *gone = kz_callee(&callees, 0);
    if (!gone || gone->kind != KZR_REGISTRY)
        return STATUS_INVALID_PARAMETER;
    for (KzKey *key = kz_open_keys(); key; key = key->next)
        give_back(key, gone);
    kz_take_off_routine(gone);
    return STATUS_SUCCESS;
}

VOID CmGetCallbackVersion(PULONG Major, PULONG Minor)
{
    if (Major)
        *Major = 1;
    if (Minor)
        *Minor = 0;
}

/* ---- Calling them. */
typedef struct {
    KzCallees callees;
    unsigned asked; /* that let it go on */
    PVOID contexts[KZ_MOST_ROUTINES];
} Asked;

/* STATUS_SUCCESS, or with what the first one stops it. */
static NTSTATUS ask(const KzKeyEvent *event, Asked *asked)
{
    for (; asked->asked < asked->callees.count; asked->asked++) {
        KzRoutine *one = kz_callee(&asked->callees, asked->asked);
        if (!one)
            continue;
        *event->call_context = NULL;
        *event->object_context = kept_of(event->owner, one);
        NTSTATUS status = call(one, event->before, event->information);
        asked->contexts[asked->asked] = *event->call_context;
        if (status == STATUS_CALLBACK_BYPASS || !NT_SUCCESS(status))
            return status;
    }
    return STATUS_SUCCESS;
}

/* A callback that answers STATUS_CALLBACK_BYPASS has set the status that the caller gets. */
static NTSTATUS tell(const KzKeyEvent *event, const Asked *asked, NTSTATUS status)
{
    for (unsigned at = asked->asked; at-- > 0;) {
        KzRoutine *one = kz_callee(&asked->callees, at);
        if (!one)
            continue;
        REG_POST_OPERATION_INFORMATION after = {.Object = *event->object, .Status = status, .PreInformation = event->information, .ReturnStatus = status, .CallContext = asked->contexts[at], .ObjectContext = kept_of(event->owner, one)};
        if (call(one, event->after, &after) == STATUS_CALLBACK_BYPASS)
            status = after.ReturnStatus;
    }
    return status;
}

NTSTATUS kz_touch_key(const KzKeyEvent *event, NTSTATUS (*perform)(void *given), void *given)
{
    Asked asked = {0};
    kz_callees(KZR_REGISTRY, KZR_REGISTRY, &asked.callees);
    NTSTATUS status = ask(event, &asked);
    if (status == STATUS_CALLBACK_BYPASS)
        status = STATUS_SUCCESS;
    else if (NT_SUCCESS(status))
        status = perform(given);
    return tell(event, &asked, status);
}
