/* Slim locks of a program's threads, and locks of bytes in its files. */
#include "core/beside.h"
#include "core/client.h"
#include "core/op.h"
#include "user/later.h"
#include "user/object.h"
#include "user/program.h"

/* ---- Slim locks: how many read under it; where one writes his address, as a number below zero. */
typedef struct {
    intptr_t held;
} Slim;
enum { SHARED = sizeof(((KzUser *)0)->shared) / sizeof(((KzUser *)0)->shared[0]) };

static bool is_free(void *slim)
{
    return ((Slim *)slim)->held == 0;
}

static bool is_shared(void *slim)
{
    return ((Slim *)slim)->held >= 0;
}

/* Where a lock is among those that a thread shares; no lock is where there is room. */
static unsigned place_of(const KzUser *user, const void *slim)
{
    unsigned at = 0;
    while (at < SHARED && user->shared[at] != slim)
        at++;
    return at;
}

static void note_shared(const void *before, const void *now)
{
    unsigned at = place_of(kz_user(), before);
    if (at < SHARED)
        kz_user()->shared[at] = now;
}

typedef struct {
    const Slim *slim;
    const KzProcess *process;
} Owned;

/* Who writes, or the first who reads. */
static const KzClient *owner_of(const void *given)
{
    const Owned *owned = given;
    const KzUser *user = owned->slim->held < 0 ? (const KzUser *)-owned->slim->held : owned->process->users;
    while (owned->slim->held > 0 && user && place_of(user, owned->slim) == SHARED)
        user = user->next;
    return owned->slim->held && user ? &user->thread->client : NULL;
}

static unsigned char take(Slim *slim, bool shares, uint32_t milliseconds, const char *call)
{
    KZ_CALL_OF(call);
    const Owned owned = {slim, kz_user()->process};
    kz_waits_for_owner(owner_of, &owned, false);
    if (!kz_user_waits(shares ? is_shared : is_free, slim, milliseconds, call))
        return 0;
    if (shares)
        note_shared(NULL, slim);
    slim->held = shares ? slim->held + 1 : -(intptr_t)kz_user();
    kz_scheduler->touch(slim, 0, KZT_TAKES);
    return 1;
}

static void give(Slim *slim, const char *call)
{
    KZ_CALL_OF(call);
    kz_scheduler->touch(slim, 0, KZT_GIVES);
    if (slim->held > 0)
        note_shared(slim, NULL);
    if (slim->held)
        slim->held = slim->held > 0 ? slim->held - 1 : 0;
    kz.changes++;
}

void InitializeSRWLock(Slim *slim);
void InitializeSRWLock(Slim *slim)
{
    *slim = (Slim){0};
}

void AcquireSRWLockExclusive(Slim *slim);
void AcquireSRWLockExclusive(Slim *slim)
{
    take(slim, false, UINT32_MAX, __func__);
    kz_go_on_or_end();
}

void AcquireSRWLockShared(Slim *slim);
void AcquireSRWLockShared(Slim *slim)
{
    take(slim, true, UINT32_MAX, __func__);
    kz_go_on_or_end();
}

unsigned char TryAcquireSRWLockExclusive(Slim *slim);
unsigned char TryAcquireSRWLockExclusive(Slim *slim)
{
    return take(slim, false, 0, __func__);
}

unsigned char TryAcquireSRWLockShared(Slim *slim);
unsigned char TryAcquireSRWLockShared(Slim *slim)
{
    return take(slim, true, 0, __func__);
}

void ReleaseSRWLockExclusive(Slim *slim);
void ReleaseSRWLockExclusive(Slim *slim)
{
    give(slim, __func__);
}

void ReleaseSRWLockShared(Slim *slim);
void ReleaseSRWLockShared(Slim *slim)
{
    give(slim, __func__);
}

/* ---- Bytes. */
static int lock(void *handle, uint8_t minor, uint8_t flags, KzOverlapped *overlapped, uint64_t from, uint64_t length, const char *call)
{
    int is_right = 0;
    {
        KZ_CALL_OF(call);
        KzObject *object = kz_object(handle, KZU_FILE);
        const KzAsked asked = {.major = IRP_MJ_LOCK_CONTROL, .minor = minor, .flags = flags, .from = from, .length = length, .waits = minor == IRP_MN_LOCK && !(flags & SL_FAIL_IMMEDIATELY)};
        uint32_t error = object ? kz_ask_later(object, &asked, (KzAnswerTo){.overlapped = overlapped}, call) : KZ_ERROR_INVALID_HANDLE;
        is_right = error ? kz_failed(error) : 1;
    }
    kz_go_on_or_end();
    return is_right;
}

static uint64_t whole(uint32_t low, uint32_t high)
{
    return (uint64_t)high << 32 | low;
}

int LockFileEx(void *handle, uint32_t flags, uint32_t reserved, uint32_t low, uint32_t high, KzOverlapped *overlapped);
int LockFileEx(void *handle, uint32_t flags, uint32_t reserved, uint32_t low, uint32_t high, KzOverlapped *overlapped)
{
    (void)reserved;
    uint8_t asked = (uint8_t)((flags & 1 ? SL_FAIL_IMMEDIATELY : 0) | (flags & 2 ? SL_EXCLUSIVE_LOCK : 0)); /* LOCKFILE_FAIL_IMMEDIATELY, LOCKFILE_EXCLUSIVE_LOCK */
    return lock(handle, IRP_MN_LOCK, asked, overlapped, overlapped->offset, whole(low, high), __func__);
}

int UnlockFileEx(void *handle, uint32_t reserved, uint32_t low, uint32_t high, KzOverlapped *overlapped);
int UnlockFileEx(void *handle, uint32_t reserved, uint32_t low, uint32_t high, KzOverlapped *overlapped)
{
    (void)reserved;
    return lock(handle, IRP_MN_UNLOCK_SINGLE, 0, overlapped, overlapped->offset, whole(low, high), __func__);
}

int LockFile(void *handle, uint32_t from_low, uint32_t from_high, uint32_t low, uint32_t high);
int LockFile(void *handle, uint32_t from_low, uint32_t from_high, uint32_t low, uint32_t high)
{
    return lock(handle, IRP_MN_LOCK, SL_FAIL_IMMEDIATELY | SL_EXCLUSIVE_LOCK, NULL, whole(from_low, from_high), whole(low, high), __func__);
}

int UnlockFile(void *handle, uint32_t from_low, uint32_t from_high, uint32_t low, uint32_t high);
int UnlockFile(void *handle, uint32_t from_low, uint32_t from_high, uint32_t low, uint32_t high)
{
    return lock(handle, IRP_MN_UNLOCK_SINGLE, 0, NULL, whole(from_low, from_high), whole(low, high), __func__);
}
