/* Events, semaphores and mutexes: what can be waited for. */
#include "kit/dispatcher.h"

#include "core/access.h"
#include "core/client.h"
#include "core/held.h"
#include "core/piece.h"
#include "core/told.h"

/* ---- What was initialized has a list of its own, in which nobody waits here. */
static bool was_made(const DISPATCHER_HEADER *object)
{
    return object->WaitListHead.Flink == &object->WaitListHead;
}

void kz_make_dispatcher(PDISPATCHER_HEADER object)
{
    InitializeListHead(&object->WaitListHead);
}

bool kz_check_dispatcher(const DISPATCHER_HEADER *object, const char *kind, const char *call)
{
    if (!was_made(object))
        kz_tell_of(object, KZM_NEVER_MADE, call, kz_is_freed(object) ? "%s whose memory was freed" : "%s that was never initialized", kind);
    return was_made(object);
}

/* ---- What can be waited for. */
VOID KeInitializeEvent(PRKEVENT Event, EVENT_TYPE Type, BOOLEAN State)
{
    KZ_INSIDE_ALONE();
    kz_uses_bytes(Event, sizeof *Event, KZU_WRITES);
    kz_must_be_there(Event, "an event", __func__);
    *Event = (KEVENT){.Header = {.Type = (UCHAR)(Type == NotificationEvent ? KZ_EVENT_KEEPS : KZ_EVENT_RESETS), .SignalState = State}};
    kz_make_dispatcher(&Event->Header);
}

LONG KeSetEvent(PRKEVENT Event, KPRIORITY Increment, BOOLEAN Wait)
{
    KZ_CALL();
    kz_check_dispatcher(&Event->Header, "an event", __func__);
    (void)Increment;
    kz_owe_wait(Wait);
    LONG before = Event->Header.SignalState;
    Event->Header.SignalState = 1;
    kz_scheduler->touch(Event, 0, KZT_GIVES);
    return before;
}

LONG KeResetEvent(PRKEVENT Event)
{
    KZ_CALL();
    kz_check_dispatcher(&Event->Header, "an event", __func__);
    LONG before = Event->Header.SignalState;
    Event->Header.SignalState = 0;
    kz_scheduler->touch(Event, 0, KZT_TAKES);
    return before;
}

VOID KeClearEvent(PRKEVENT Event)
{
    KZ_CALL();
    kz_check_dispatcher(&Event->Header, "an event", __func__);
    Event->Header.SignalState = 0;
}

LONG KeReadStateEvent(PRKEVENT Event)
{
    KZ_CALL();
    kz_check_dispatcher(&Event->Header, "an event", __func__);
    kz_scheduler->touch(Event, 0, KZT_TAKES);
    return Event->Header.SignalState;
}

VOID KeInitializeSemaphore(PRKSEMAPHORE Semaphore, LONG Count, LONG Limit)
{
    KZ_INSIDE_ALONE();
    kz_uses_bytes(Semaphore, sizeof *Semaphore, KZU_WRITES);
    kz_must_be_there(Semaphore, "a semaphore", __func__);
    *Semaphore = (KSEMAPHORE){.Header = {.Type = KZ_SEMAPHORE, .SignalState = Count}, .Limit = Limit};
    kz_make_dispatcher(&Semaphore->Header);
}

LONG KeReleaseSemaphore(PRKSEMAPHORE Semaphore, KPRIORITY Increment, LONG Adjustment, BOOLEAN Wait)
{
    KZ_CALL();
    kz_check_dispatcher(&Semaphore->Header, "a semaphore", __func__);
    (void)Increment;
    kz_owe_wait(Wait);
    LONG before = Semaphore->Header.SignalState;
    kz_scheduler->touch(Semaphore, 0, KZT_GIVES);
    if (!was_made(&Semaphore->Header))
        return 0;
    if (before > Semaphore->Limit - Adjustment)
        kz_tell(KZM_LOCK_NOT_HELD, __func__, "past the limit of the semaphore");
    else
        Semaphore->Header.SignalState += Adjustment;
    return before;
}

VOID KeInitializeMutex(PRKMUTEX Mutex, ULONG Level)
{
    KZ_INSIDE_ALONE();
    kz_uses_bytes(Mutex, sizeof *Mutex, KZU_WRITES);
    (void)Level;
    kz_must_be_there(Mutex, "a mutex", __func__);
    *Mutex = (KMUTEX){.Header = {.Type = KZ_MUTANT, .SignalState = 1}};
    kz_make_dispatcher(&Mutex->Header);
}

LONG KeReleaseMutex(PRKMUTEX Mutex, BOOLEAN Wait)
{
    KZ_CALL();
    kz_check_dispatcher(&Mutex->Header, "a mutex", __func__);
    kz_owe_wait(Wait);
    LONG before = Mutex->Header.SignalState;
    KzLetGo(Mutex, __func__);
    Mutex->Header.SignalState = KzIsHeld(Mutex) ? 0 : 1;
    return before;
}
