/* What a program waits for: threads, events, semaphores, mutexes; and critical sections. */
#include "core/beside.h"
#include "core/client.h"
#include "core/told.h"
#include "user/object.h"
#include "user/program.h"

#define WAIT_FAILED UINT32_MAX

/* For that thread. A mutex whose owner has ended is abandoned. */
static bool is_signalled(const KzObject *one, const KzUser *by)
{
    switch (one->kind) {
    case KZU_THREAD:
        return one->owner->has_ended;
    case KZU_MUTEX:
        return !one->owner || one->owner == by || one->owner->has_ended;
    case KZU_EVENT:
    case KZU_SEMAPHORE:
        return one->count > 0;
    default:
        return false;
    }
}

/* Whether it was abandoned. */
static bool take(KzObject *one)
{
    bool is_abandoned = one->kind == KZU_MUTEX && one->owner && one->owner->has_ended;
    kz_scheduler->touch(one, 0, KZT_TAKES);
    if (one->kind == KZU_MUTEX) {
        one->owner = kz_user();
        one->count = is_abandoned ? 1 : one->count + 1;
    } else if (one->kind == KZU_SEMAPHORE || (one->kind == KZU_EVENT && !one->is_manual)) {
        one->count--;
    }
    return is_abandoned;
}

typedef struct {
    KzObject *objects[64];
    const KzUser *by;
    uint32_t count, first;
    bool wants_all;
} Wanted;

static bool is_there(void *given)
{
    Wanted *wanted = given;
    uint32_t signalled = 0;
    wanted->first = 64;
    for (uint32_t at = 0; at < wanted->count; at++) {
        bool is = is_signalled(wanted->objects[at], wanted->by);
        signalled += is;
        wanted->first = is && wanted->first == 64 ? at : wanted->first;
    }
    return wanted->wants_all ? signalled == wanted->count : signalled > 0;
}

/* The owner of a mutex, or the thread itself: of what it waits for alone, or of the first that is missing. */
static const KzClient *owner_of(const void *given)
{
    const Wanted *wanted = given;
    uint32_t at = 0;
    while (at + 1 < wanted->count && is_signalled(wanted->objects[at], wanted->by))
        at++;
    const KzObject *one = wanted->objects[at];
    bool has_owner = one->kind == KZU_MUTEX || one->kind == KZU_THREAD;
    return has_owner && one->owner ? &one->owner->thread->client : NULL;
}

static uint32_t wait_for(Wanted *wanted, uint32_t milliseconds)
{
    if (wanted->count == 1 || wanted->wants_all)
        kz_waits_for_owner(owner_of, wanted, false);
    if (!kz_user_waits(is_there, wanted, milliseconds, "an object of the program"))
        return KZ_WAIT_TIMEOUT;
    bool is_abandoned = false;
    for (uint32_t at = 0; wanted->wants_all && at < wanted->count; at++)
        is_abandoned |= take(wanted->objects[at]);
    if (!wanted->wants_all)
        is_abandoned = take(wanted->objects[wanted->first]);
    return (wanted->wants_all ? 0 : wanted->first) + (is_abandoned ? KZ_WAIT_ABANDONED : 0);
}

uint32_t WaitForMultipleObjectsEx(uint32_t count, void *const *handles, int wants_all, uint32_t milliseconds, int is_alertable);
uint32_t WaitForMultipleObjectsEx(uint32_t count, void *const *handles, int wants_all, uint32_t milliseconds, int is_alertable)
{
    uint32_t answer = WAIT_FAILED;
    (void)is_alertable;
    {
        KZ_CALL();
        Wanted wanted = {.count = count, .wants_all = wants_all, .by = kz_user()};
        bool is_right = count > 0 && count <= 64;
        for (uint32_t at = 0; is_right && at < count; at++)
            is_right = (wanted.objects[at] = kz_any_object(handles[at])) != NULL;
        if (is_right)
            answer = wait_for(&wanted, milliseconds);
    }
    kz_go_on_or_end();
    return answer;
}

uint32_t WaitForMultipleObjects(uint32_t count, void *const *handles, int wants_all, uint32_t milliseconds);
uint32_t WaitForMultipleObjects(uint32_t count, void *const *handles, int wants_all, uint32_t milliseconds)
{
    return WaitForMultipleObjectsEx(count, handles, wants_all, milliseconds, 0);
}

uint32_t WaitForSingleObject(void *handle, uint32_t milliseconds);
uint32_t WaitForSingleObject(void *handle, uint32_t milliseconds)
{
    return WaitForMultipleObjectsEx(1, &handle, 0, milliseconds, 0);
}

uint32_t WaitForSingleObjectEx(void *handle, uint32_t milliseconds, int is_alertable);
uint32_t WaitForSingleObjectEx(void *handle, uint32_t milliseconds, int is_alertable)
{
    return WaitForMultipleObjectsEx(1, &handle, 0, milliseconds, is_alertable);
}

void Sleep(uint32_t milliseconds);
void Sleep(uint32_t milliseconds)
{
    {
        KZ_CALL();
        kz_user_waits(NULL, NULL, milliseconds, "Sleep");
    }
    kz_go_on_or_end();
}

/* ---- Making and setting them. */
static KzObject *new_counted(KzObjectKind kind, int32_t count, int32_t most, bool is_manual)
{
    KZ_INSIDE();
    KzObject *made = kz_new_object(kind);
    made->count = count;
    made->most = most;
    made->is_manual = is_manual;
    return made;
}

static int set(void *handle, KzObjectKind kind, int32_t add, int32_t *before)
{
    KZ_CALL();
    KzObject *one = kz_object(handle, kind);
    if (!one)
        return 0;
    if (before)
        *before = one->count;
    if (kind == KZU_SEMAPHORE && (add < 1 || one->count > one->most - add))
        return kz_failed(298); /* ERROR_TOO_MANY_POSTS */
    one->count = kind == KZU_SEMAPHORE ? one->count + add : add;
    kz.changes++;
    kz_scheduler->touch(one, 0, KZT_GIVES);
    return 1;
}

void *CreateEventA(const void *attributes, int is_manual, int is_set, const char *name);
void *CreateEventA(const void *attributes, int is_manual, int is_set, const char *name)
{
    (void)attributes, (void)name;
    return new_counted(KZU_EVENT, is_set != 0, 1, is_manual);
}

void *CreateEventW(const void *attributes, int is_manual, int is_set, const void *name);
void *CreateEventW(const void *attributes, int is_manual, int is_set, const void *name)
{
    (void)name;
    return CreateEventA(attributes, is_manual, is_set, NULL);
}

int SetEvent(void *handle);
int SetEvent(void *handle)
{
    return set(handle, KZU_EVENT, 1, NULL);
}

int ResetEvent(void *handle);
int ResetEvent(void *handle)
{
    return set(handle, KZU_EVENT, 0, NULL);
}

void *CreateSemaphoreA(const void *attributes, int32_t count, int32_t most, const char *name);
void *CreateSemaphoreA(const void *attributes, int32_t count, int32_t most, const char *name)
{
    (void)attributes, (void)name;
    return new_counted(KZU_SEMAPHORE, count, most, false);
}

void *CreateSemaphoreW(const void *attributes, int32_t count, int32_t most, const void *name);
void *CreateSemaphoreW(const void *attributes, int32_t count, int32_t most, const void *name)
{
    (void)name;
    return CreateSemaphoreA(attributes, count, most, NULL);
}

int ReleaseSemaphore(void *handle, int32_t count, int32_t *before);
int ReleaseSemaphore(void *handle, int32_t count, int32_t *before)
{
    return set(handle, KZU_SEMAPHORE, count, before);
}

void *CreateMutexA(const void *attributes, int is_owned, const char *name);
void *CreateMutexA(const void *attributes, int is_owned, const char *name)
{
    (void)attributes, (void)name;
    KzObject *made = new_counted(KZU_MUTEX, is_owned != 0, 0, false);
    made->owner = is_owned ? kz_user() : NULL;
    return made;
}

void *CreateMutexW(const void *attributes, int is_owned, const void *name);
void *CreateMutexW(const void *attributes, int is_owned, const void *name)
{
    (void)name;
    return CreateMutexA(attributes, is_owned, NULL);
}

int ReleaseMutex(void *handle);
int ReleaseMutex(void *handle)
{
    KZ_CALL();
    KzObject *one = kz_object(handle, KZU_MUTEX);
    if (!one)
        return 0;
    if (one->owner != kz_user())
        return kz_failed(288); /* ERROR_NOT_OWNER */
    if (--one->count == 0)
        one->owner = NULL;
    kz.changes++;
    kz_scheduler->touch(one, 0, KZT_GIVES);
    return 1;
}

/* ---- Critical sections are the program's own memory. */
typedef struct {
    KzUser *owner;
    int32_t count;
} Section;

static bool is_free(void *given)
{
    Section *section = given;
    return !section->owner || section->owner == kz_user();
}

void InitializeCriticalSection(Section *section);
void InitializeCriticalSection(Section *section)
{
    *section = (Section){0};
}

void DeleteCriticalSection(Section *section);
void DeleteCriticalSection(Section *section)
{
    (void)section;
}

static const KzClient *owner_of_section(const void *section)
{
    const KzUser *owner = ((const Section *)section)->owner;
    return owner ? &owner->thread->client : NULL;
}

static int enter(Section *section, uint32_t milliseconds)
{
    KZ_CALL_OF("EnterCriticalSection");
    kz_waits_for_owner(owner_of_section, section, false);
    if (!kz_user_waits(is_free, section, milliseconds, "EnterCriticalSection"))
        return 0;
    section->owner = kz_user();
    section->count++;
    kz_scheduler->touch(section, 0, KZT_TAKES);
    return 1;
}

void EnterCriticalSection(Section *section);
void EnterCriticalSection(Section *section)
{
    enter(section, UINT32_MAX);
    kz_go_on_or_end();
}

int TryEnterCriticalSection(Section *section);
int TryEnterCriticalSection(Section *section)
{
    return enter(section, 0);
}

void LeaveCriticalSection(Section *section);
void LeaveCriticalSection(Section *section)
{
    KZ_CALL();
    kz_scheduler->touch(section, 0, KZT_GIVES);
    if (section->count > 0 && --section->count == 0)
        section->owner = NULL;
    kz.changes++;
}

/* ---- Threads. */
void *CreateThread(const void *attributes, size_t stack, uint32_t (*start)(void *), void *parameter, uint32_t flags, uint32_t *id);
void *CreateThread(const void *attributes, size_t stack, uint32_t (*start)(void *), void *parameter, uint32_t flags, uint32_t *id)
{
    (void)attributes, (void)stack, (void)flags;
    KZ_CALL();
    KzUser *made = kz_new_user(kz_user()->process, start, parameter);
    if (!made) {
        kz_tell(KZM_THREAD, __func__, "more than %u threads run next to the requests: it fails", KZ_THREADS);
        kz_failed(8);
        return NULL;
    }
    made->object = kz_new_object(KZU_THREAD);
    made->object->owner = made;
    if (id)
        *id = (uint32_t)made->thread->client.thread;
    return made->object;
}

uintptr_t _beginthreadex(void *security, unsigned stack, unsigned (*start)(void *), void *parameter, unsigned flags, unsigned *id);
uintptr_t _beginthreadex(void *security, unsigned stack, unsigned (*start)(void *), void *parameter, unsigned flags, unsigned *id)
{
    return (uintptr_t)CreateThread(security, stack, start, parameter, flags, id);
}

int GetExitCodeThread(void *handle, uint32_t *code);
int GetExitCodeThread(void *handle, uint32_t *code)
{
    KZ_CALL();
    KzObject *one = kz_object(handle, KZU_THREAD);
    if (one)
        *code = one->owner->has_ended ? one->owner->result : 259;
    return one != NULL;
}

void ExitThread(uint32_t code) __attribute__((noreturn));
void ExitThread(uint32_t code)
{
    kz_user()->result = code;
    longjmp(kz_user()->end, 1);
}

/* Its main thread ends the process; from another one its other threads end where they come out of a call. */
void ExitProcess(uint32_t code) __attribute__((noreturn));
void ExitProcess(uint32_t code)
{
    KzUser *me = kz_user();
    me->result = code;
    me->start = NULL;
    longjmp(me->end, 1);
}

uint32_t GetCurrentProcessId(void);
uint32_t GetCurrentProcessId(void)
{
    return (uint32_t)kz_me->process;
}

uint32_t GetCurrentThreadId(void);
uint32_t GetCurrentThreadId(void)
{
    return (uint32_t)kz_me->thread;
}
