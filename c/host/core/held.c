/* Locks that clients hold, and the IRQL at which they are. What a client holds stands in a list, by the lock's address, with the callback that took it. */
#include "core/held.h"

#include "core/access.h"
#include "core/client.h"
#include "core/made.h"
#include "core/memory.h"
#include "core/module.h"
#include "core/told.h"

#include <stdlib.h>

typedef struct {
    const void *lock;
    KzClient *client;
    unsigned count;
    bool is_shared, is_in_region, is_guarded;
    KIRQL irql, before; /* to which it raises, and at which it was taken */
    const char *call;
    const void *from, *callers[2]; /* where, as KzPlace has it */
    uint64_t place; /* the callback's number: kz_me->place.number */
} Held;

/* Room for so many at first. */
enum { FEW = 64 };

struct KzHeldState {
    Held *all;
    size_t count, room;
    struct Wanted *wanted;
};

static Held *find_of(const void *lock, const KzClient *client)
{
    for (size_t at = 0; at < kz.held->count; at++)
        if (kz.held->all[at].lock == lock && kz.held->all[at].client == client)
            return &kz.held->all[at];
    return NULL;
}

static Held *find(const void *lock)
{
    return find_of(lock, kz_me);
}

/* Whether another client is in the way. */
static Held *other(const void *lock, KzClient *client, bool is_shared)
{
    for (size_t at = 0; at < kz.held->count; at++)
        if (kz.held->all[at].lock == lock && kz.held->all[at].client != client && !(is_shared && kz.held->all[at].is_shared))
            return &kz.held->all[at];
    return NULL;
}

/* Whether its owner may ask for it again. */
static bool may_share(const Held *one, int how)
{
    if (how == KZ_SHARED)
        return one->is_shared;
    return how == KZ_AGAIN ? !one->is_shared : how != KZ_ALONE;
}

static bool is_shared(int how)
{
    return how != KZ_ALONE && how != KZ_AGAIN;
}

/* ---- Who waits for a lock, in the order in which they came. */
typedef struct Wanted {
    struct Wanted *next;
    PVOID lock;
    KzClient *client;
    int how;
} Wanted;

/* Whoever waits for the lock alone, and came before: no new reader goes past. An owner of a resource does, and who starves the others on purpose. */
static const Wanted *before(const Wanted *reader)
{
    const Held *own = find_of(reader->lock, reader->client);
    bool goes_first = reader->how == KZ_SHARED_FIRST || (own && reader->how == KZ_SHARED_AGAIN) || (own && !own->is_shared);
    if (!is_shared(reader->how) || goes_first)
        return NULL;
    for (const Wanted *one = kz.held->wanted; one && one != reader; one = one->next)
        if (one->lock == reader->lock && !is_shared(one->how) && one->client != reader->client)
            return one;
    return NULL;
}

static bool is_free(void *asked)
{
    const Wanted *one = asked;
    return !other(one->lock, one->client, is_shared(one->how)) && !before(one);
}

static const KzClient *owner_of(const void *asked)
{
    const Wanted *one = asked;
    const Held *owner = other(one->lock, one->client, is_shared(one->how));
    return owner ? owner->client : NULL;
}

static void leave_line(Wanted *one)
{
    Wanted **at = &kz.held->wanted;
    while (*at && *at != one)
        at = &(*at)->next;
    if (*at)
        *at = one->next;
}

static void wait_in_line(Wanted *one, const char *call)
{
    Wanted **at = &kz.held->wanted;
    while (*at)
        at = &(*at)->next;
    *at = one;
    const Held *owner = other(one->lock, one->client, is_shared(one->how));
    const Wanted *writer = before(one);
    kz_waits_for_owner(owner_of, one, true);
    if (owner)
        kz_wait(is_free, one, "%s of a lock that %s holds", call, owner->client->name);
    else
        kz_wait(is_free, one, "%s of a lock that %s waits for exclusively", call, writer->client->name);
    kz_scheduler->uses(one->lock, KZU_WRITES);
    leave_line(one);
}

static void add(Held one)
{
    if (kz.held->count == kz.held->room) {
        size_t room = kz.held->room ? 2 * kz.held->room : FEW;
        Held *larger = kz_common_memory(room * sizeof *larger);
        if (kz.held->count)
            memcpy(larger, kz.held->all, kz.held->count * sizeof *larger);
        free(kz.held->all);
        kz.held->all = larger;
        kz.held->room = room;
    }
    size_t place = kz.held->count++; /* by clients: so that what is held is the same whoever took his first */
    for (; place > 0 && kz.held->all[place - 1].client->number > one.client->number; place--)
        kz.held->all[place] = kz.held->all[place - 1];
    kz.held->all[place] = one;
}

/* What a pool's memory is filled with: a lock is 0 while nobody holds it. */
#define UNWRITTEN 0xcdcdcdcdcdcdcdcdULL

/* Who holds a spin lock can't wait for a page of it, and the kernel itself touches a fast mutex. */
static void check_place(const void *lock, int which, KIRQL irql, const char *call)
{
    if (which & KZ_MADE)
        kz_is_made(lock, "a resource", call);
    else if (which & KZ_COUNTED && ((const FAST_MUTEX *)lock)->Count != 1)
        kz_tell_of(lock, KZM_NEVER_MADE, call, "a fast mutex that was never initialized");
    else if (irql >= DISPATCH_LEVEL && *(const ULONG_PTR *)lock == UNWRITTEN)
        kz_tell_of(lock, KZM_NEVER_MADE, call, "a spin lock that was never initialized");
    if (irql >= DISPATCH_LEVEL || which & KZ_FAST)
        kz_must_be_there(lock, irql >= DISPATCH_LEVEL ? "a spin lock" : "a fast mutex", call);
}

static void note(PVOID lock, int how, KIRQL irql, const char *call)
{
    Held *one = find(lock);
    bool is_guarded = how & KZ_GUARDED, is_in_region = is_guarded || how & KZ_IN_REGION;
    KIRQL before = how & KZ_AT_DPC ? DISPATCH_LEVEL : kz_irql();
    check_place(lock, how, irql, call);
    if (one)
        one->count++;
    else
        add((Held){lock, kz_me, 1, is_shared(how & KZ_HOW), is_in_region, is_guarded, irql, before, call, kz_me->place.from, {kz_me->place.callers[0], kz_me->place.callers[1]}, kz_me->place.number});
    kz_scheduler->touch(lock, 0, KZT_TAKES);
}

/* Who has it, and who waits for it: of other locks nothing. */
static void use_lock(const void *lock)
{
    kz_uses_own();
    kz_scheduler->uses(lock, KZU_WRITES);
}

/* In what state a thread may ask for it. */
static void check_state(const void *lock, int how, const char *call)
{
    if (how & KZ_NEEDS_REGION && !kz_are_apcs_disabled())
        kz_tell_of(lock, KZM_APCS_ENABLED, call, "called with normal kernel APCs enabled (no KeEnterCriticalRegion)");
    if (how & KZ_AT_DPC && kz_irql() < DISPATCH_LEVEL)
        kz_tell(KZM_IRQL, call, "called at IRQL %u; it may be called at DISPATCH_LEVEL (2) alone", kz_irql());
}

BOOLEAN KzTryTake(PVOID Lock, int How, KIRQL Irql, PCSTR Call)
{
    KZ_CALL_OF(Call);
    use_lock(Lock);
    check_state(Lock, How, Call);
    Held *one = find(Lock);
    int how = How & KZ_HOW;
    if ((one && !may_share(one, how)) || !is_free(&(Wanted){.lock = Lock, .client = kz_me, .how = how})) {
        kz_scheduler->looked(Lock, KZ_CALLER());
        return FALSE;
    }
    note(Lock, How, Irql, Call);
    return TRUE;
}

VOID KzTake(PVOID Lock, int How, KIRQL Irql, PCSTR Call)
{
    KZ_CALL_OF(Call);
    use_lock(Lock);
    check_state(Lock, How, Call);
    Held *one = find(Lock);
    Wanted asked = {.lock = Lock, .client = kz_me, .how = How & KZ_HOW};
    if (one && !may_share(one, asked.how))
        kz_tell(KZM_WAITS_FOR_EVER, Call, "the lock is held already, and by the same thread: it would wait for ever");
    else if (!is_free(&asked))
        wait_in_line(&asked, Call);
    note(Lock, How, Irql, Call);
}

static void let_go(Held *one, PVOID lock, const char *call)
{
    if (!one) {
        kz_tell(KZM_LOCK_NOT_HELD, call, "the lock isn't held");
        return;
    }
    if (--one->count == 0) {
        memmove(one, one + 1, (size_t)(kz.held->all + kz.held->count - one - 1) * sizeof *one);
        kz.held->all[--kz.held->count] = (Held){0};
    }
    kz_scheduler->touch(lock, 0, KZT_GIVES);
}

VOID KzLetGo(PVOID Lock, PCSTR Call)
{
    KZ_CALL_OF(Call);
    use_lock(Lock);
    let_go(find(Lock), Lock, Call);
}

/* The IRQL stays, whatever it was as the lock was taken. */
VOID KzLetGoAtDpc(PVOID Lock, PCSTR Call)
{
    KZ_CALL_OF(Call);
    use_lock(Lock);
    Held *one = find(Lock);
    if (one && one->before < DISPATCH_LEVEL)
        kz_me->place.raised = DISPATCH_LEVEL;
    let_go(one, Lock, Call);
}

VOID KzForgetLock(PVOID Lock, PCSTR Call)
{
    KZ_CALL_OF(Call);
    Held *one = find(Lock);
    if (!one)
        one = other(Lock, kz_me, false);
    if (!one)
        return;
    kz_tell(KZM_LOCK_DELETED, Call, "the lock is still held");
    one->count = 1;
    let_go(one, Lock, Call);
}

const char *kz_waits_for_mine(void)
{
    for (const Wanted *one = kz.held->wanted; one; one = one->next) {
        const Held *owner = other(one->lock, one->client, is_shared(one->how));
        if (owner && owner->client == kz_me)
            return one->client->name;
    }
    return NULL;
}

/* By another client. */
bool kz_is_taken(const void *lock)
{
    return other(lock, kz_me, false) != NULL;
}

const KzClient *kz_holder_of(const void *lock)
{
    for (size_t at = 0; at < kz.held->count; at++)
        if (kz.held->all[at].lock == lock)
            return kz.held->all[at].client;
    return NULL;
}

BOOLEAN KzIsHeldAlone(const VOID *Lock)
{
    KZ_INSIDE_ALONE();
    Held *one = find(Lock);
    return one && !one->is_shared;
}

ULONG KzIsHeld(const VOID *Lock)
{
    KZ_INSIDE_ALONE();
    Held *one = find(Lock);
    return one ? one->count : 0;
}

/* The thread's own state is as it was when the callback was called. */
static void tell_state(void)
{
    KzPlace *place = &kz_me->place;
    if (place->raised > place->irql)
        kz_tell(KZM_LOCK_AT_RETURN, kz_me->owes_wait ? "KeWaitForSingleObject" : "KeLowerIrql", kz_me->owes_wait ? "never called after a call whose Wait is TRUE" : "the IRQL is still raised as the callback returns");
    place->raised = place->irql;
    kz_me->owes_wait = false;
    if (kz_me->process != place->process)
        kz_tell(KZM_ATTACHED, "KeUnstackDetachProcess", "never called: the thread is in process %llu as the callback returns", (unsigned long long)kz_me->process);
    kz_me->process = place->process;
    if (kz_me->top_level != place->top_level)
        kz_tell(KZM_ATTACHED, "IoSetTopLevelIrp", "the thread's top-level IRP isn't what it was as the callback began");
    kz_me->top_level = place->top_level;
}

/* What the callback that returns took and didn't let go. */
void kz_tell_locks(void)
{
    for (size_t at = 0; at < kz.held->count;) {
        if (kz.held->all[at].client != kz_me || kz.held->all[at].place != kz_me->place.number) {
            at++;
            continue;
        }
        const void *lock = kz.held->all[at].lock;
        kz_me->place.call = kz.held->all[at].call;
        kz_me->place.from = kz.held->all[at].from;
        memcpy(kz_me->place.callers, kz.held->all[at].callers, sizeof kz_me->place.callers);
        kz_tell(KZM_LOCK_AT_RETURN, kz.held->all[at].call, "the %s as the callback returns", lock == &kz_me->region ? "critical region isn't left" : lock == &kz_me->guarded ? "guarded region isn't left" : "lock is still held");
        kz.held->all[at].count = 1;
        kz_me->place.from = NULL;
        let_go(&kz.held->all[at], (PVOID)(uintptr_t)lock, kz.held->all[at].call);
    }
    if (kz_me->place.callback != KZ_IN_NOTHING)
        tell_state();
}

static void check_locks(const void *memory, size_t size)
{
    for (size_t at = kz.held->count; at-- > 0;) {
        Held one = kz.held->all[at];
        if ((uintptr_t)one.lock - (uintptr_t)memory >= size)
            continue;
        kz_tell_of(one.lock, KZM_LOCK_DELETED, one.call, "the lock is still held, and its memory is freed");
        kz.held->all[at].count = 1;
        let_go(&kz.held->all[at], (PVOID)(uintptr_t)one.lock, one.call);
    }
}

static void free_locks(void)
{
    free(kz.held->all);
}

/* ---- IRQL: that of the locks that are held, or to which it was raised. */
KIRQL kz_irql(void)
{
    KIRQL highest = kz_me->place.raised;
    for (size_t at = 0; at < kz.held->count; at++)
        if (kz.held->all[at].client == kz_me && kz.held->all[at].place >= kz_me->place.locks_from && kz.held->all[at].irql > highest)
            highest = kz.held->all[at].irql;
    return highest;
}

/* Lets go of a spin lock, and back to the IRQL that the driver says. */
VOID KzLetGoTo(PVOID Lock, KIRQL Irql, PCSTR Call)
{
    KZ_CALL_OF(Call);
    use_lock(Lock);
    Held *one = find(Lock);
    if (one && one->before != Irql)
        kz_tell(KZM_IRQL, Call, "to IRQL %u, where the lock was taken at %u", Irql, one->before);
    let_go(one, Lock, Call);
}

bool kz_is_in_region(bool is_guarded)
{
    for (size_t at = 0; at < kz.held->count; at++)
        if (kz.held->all[at].client == kz_me && (is_guarded ? kz.held->all[at].is_guarded : kz.held->all[at].is_in_region))
            return true;
    return false;
}

bool kz_are_apcs_disabled(void)
{
    for (size_t at = 0; at < kz.held->count; at++)
        if (kz.held->all[at].client == kz_me && (kz.held->all[at].is_in_region || kz.held->all[at].irql > PASSIVE_LEVEL))
            return true;
    return kz_irql() > PASSIVE_LEVEL;
}

void kz_owe_wait(bool is_owed)
{
    if (!is_owed || kz_me->owes_wait)
        return;
    kz_me->owes_wait = true;
    kz_me->before_wait = kz_me->place.raised;
    kz_me->place.raised = DISPATCH_LEVEL;
}

void kz_pay_wait(void)
{
    if (kz_me->owes_wait)
        kz_me->place.raised = kz_me->before_wait;
    kz_me->owes_wait = false;
}

bool kz_share_lock(const void *lock)
{
    Held *one = find(lock);
    if (!one || one->is_shared)
        return false;
    return one->is_shared = true;
}

const KzModule kz_held_module = {KZ_STATE(held), .free = free_locks, .memory_goes = check_locks};
