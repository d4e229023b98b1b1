/* Threads of a driver's own: each is a thread of the system's process beside the requests. */
#include "kit/thread.h"

#include "core/beside.h"
#include "core/client.h"
#include "core/memory.h"
#include "core/module.h"
#include "core/place.h"
#include "core/process.h"
#include "core/state.h"
#include "core/told.h"
#include "filesystem/handle.h"
#include "manager/hand.h"
#include "manager/operation.h"
#include "kit/notify.h"

#include <setjmp.h>
#include <stdlib.h>

typedef struct Own {
    struct Own *next;
    PFLT_FILTER filter;
    PKSTART_ROUTINE routine;
    PVOID context;
    KzThread *thread;
    PETHREAD object;
    KzPlace place; /* where it was made */
    jmp_buf end;
    bool has_ended;
} Own;

struct KzThreadState {
    Own *first;
    uint64_t last; /* identifier, of four apart */
};

static void live(void *given)
{
    Own *me = given;
    KZ_INSIDE();
    KzPlace before = kz_enter(KZ_IN_THREAD, kz_worker(), me->filter, NULL, NULL, NULL);
    unsigned depth = kz_let_driver("thread", me->routine);
    if (setjmp(me->end) == 0)
        KZ_CALL_DRIVER(me->routine, me->context);
    kz_driver_returned(depth, "thread ends");
    kz_keep_rest(NULL);
    kz_leave(before);
    kz_thread_ends(kz_me->process, kz_me->thread);
    me->has_ended = true;
}

static Own *mine(void)
{
    Own *one = kz.thread->first;
    while (one && !(kz_me->beside && one->thread == kz_me->beside))
        one = one->next;
    return one;
}

NTSTATUS PsCreateSystemThread(PHANDLE ThreadHandle, ULONG DesiredAccess, POBJECT_ATTRIBUTES ObjectAttributes, HANDLE ProcessHandle, CLIENT_ID *ClientId,
                              PKSTART_ROUTINE StartRoutine, PVOID StartContext)
{
    KZ_CALL();
    (void)DesiredAccess, (void)ObjectAttributes, (void)ProcessHandle;
    *ThreadHandle = NULL;
    if (kz_refuses(KZ_CHOICE_POOL, __func__))
        return STATUS_INSUFFICIENT_RESOURCES;
    uint64_t id = 12 + kz.thread->last;
    Own *made = kz_memory(sizeof *made);
    *made = (Own){.next = kz.thread->first, .filter = kz_me->place.filter, .routine = StartRoutine, .context = StartContext, .place = kz_me->place};
    made->object = kz_thread_object(4, id);
    made->thread = kz_new_thread("thread", 4, id, live, made);
    if (!made->thread) {
        free(made);
        kz_tell(KZM_THREAD, __func__, "more than %u threads run next to the requests: it answers STATUS_INSUFFICIENT_RESOURCES", KZ_THREADS);
        return STATUS_INSUFFICIENT_RESOURCES;
    }
    kz.thread->last += 4;
    kz.thread->first = made;
    if (ClientId)
        *ClientId = (CLIENT_ID){ULongToHandle(4), ULongToHandle(id)};
    *ThreadHandle = kz_open_handle(made->object, "a thread", OBJ_KERNEL_HANDLE);
    kz_thread_begins(4, id);
    return STATUS_SUCCESS;
}

NTSTATUS PsTerminateSystemThread(NTSTATUS ExitStatus)
{
    (void)ExitStatus;
    Own *me;
    {
        KZ_CALL();
        me = mine();
        if (!me)
            kz_tell(KZM_NO_FILTER_OBJECT, __func__, "called by a thread that PsCreateSystemThread didn't make");
    }
    if (!me)
        return STATUS_INVALID_PARAMETER;
    longjmp(me->end, 1);
}

static bool has_threads_of(PFLT_FILTER filter)
{
    const Own *one = kz.thread->first;
    while (one && !(one->filter == filter && !one->has_ended))
        one = one->next;
    return one != NULL;
}

/* ---- A filter is unloaded, and a run ends. */
static void tell_threads(PFLT_FILTER filter)
{
    for (Own *one = kz.thread->first; one; one = one->next)
        if (one->filter == filter && !one->has_ended) {
            KzPlace before = kz_enter_again(&one->place);
            kz_tell(KZM_THREAD_LEFT, "PsCreateSystemThread", "the thread that was made here runs still: it would run in a driver that is gone");
            kz_me->place = before;
            kz_freeze(one->thread);
            kz_leave_ops(&one->thread->client); /* what it waits for goes on without it */
        }
}

/* Behind the end of all threads. */
static void free_own_threads(void)
{
    while (kz.thread->first) {
        Own *one = kz.thread->first;
        kz.thread->first = one->next;
        free(one);
    }
}

const KzModule kz_thread_module = {KZ_STATE(thread), .free = free_own_threads, .filter_ends = tell_threads, .has_any_of = has_threads_of};
