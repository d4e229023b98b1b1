/* Processes and threads, by the numbers that a test gives. */
#include "core/process.h"

#include "core/client.h"
#include "core/memory.h"
#include "core/module.h"

#include <stdlib.h>

struct _ETHREAD {
    DISPATCHER_HEADER header; /* it can be waited for: until its end */
    PETHREAD next;
    PEPROCESS process;
    uint64_t id;
    KzPriority priority;
};

struct KzProcessState {
    PEPROCESS processes;
    PETHREAD threads;
};
static const char kinds[5]; /* each has an address of its own */
static const POBJECT_TYPE types[5] = {(POBJECT_TYPE)&kinds[0], (POBJECT_TYPE)&kinds[1], (POBJECT_TYPE)&kinds[2], (POBJECT_TYPE)&kinds[3], (POBJECT_TYPE)&kinds[4]};
POBJECT_TYPE *IoFileObjectType = (POBJECT_TYPE *)&types[0], *PsProcessType = (POBJECT_TYPE *)&types[1], *PsThreadType = (POBJECT_TYPE *)&types[2],
             *ExEventObjectType = (POBJECT_TYPE *)&types[3], *SeTokenObjectType = (POBJECT_TYPE *)&types[4];
static struct _EPROCESS system_process = {.id = 4};
PEPROCESS PsInitialSystemProcess = &system_process;

/* Whoever asks for it first makes it, in memory of his own. */
static void use_objects(bool is_made)
{
    kz_scheduler->uses(&kz.process->processes, is_made ? KZU_WRITES : KZU_READS);
}

PEPROCESS kz_process(uint64_t id)
{
    if (id == system_process.id)
        return &system_process;
    PEPROCESS found = kz.process->processes;
    while (found && found->id != id)
        found = found->next;
    use_objects(!found);
    if (found)
        return found;
    PEPROCESS made = kz_memory(sizeof *made);
    *made = (struct _EPROCESS){.next = kz.process->processes, .id = id};
    return kz.process->processes = made;
}

PETHREAD kz_thread_object(uint64_t process, uint64_t id)
{
    PEPROCESS owner = kz_process(process);
    PETHREAD found = kz.process->threads;
    while (found && (found->id != id || found->process != owner))
        found = found->next;
    use_objects(!found);
    if (found)
        return found;
    PETHREAD made = kz_memory(sizeof *made), *place = &kz.process->threads;
    while (*place && (*place)->id < id)
        place = &(*place)->next;
    *made = (struct _ETHREAD){.header.Type = KZ_THREAD_OBJECT, .next = *place, .process = owner, .id = id};
    return *place = made;
}

/* One that is there by that number: the system's, those that began, and whoever asks. The tests' own is there from the beginning. */
PEPROCESS kz_process_there(uint64_t id)
{
    PEPROCESS found = kz.process->processes;
    while (found && found->id != id)
        found = found->next;
    use_objects(false);
    if (!found && (id == system_process.id || id == kz_me->process || id == kz_first.process))
        found = kz_process(id);
    return found && !found->is_over ? found : NULL;
}

PETHREAD kz_thread_there(uint64_t id)
{
    PETHREAD found = kz.process->threads;
    while (found && (found->id != id || found->header.SignalState))
        found = found->next;
    use_objects(false);
    bool is_client = id >= kz_first.process + 4 && id - kz_first.process <= 4 * UINT8_MAX && id % 4 == 0;
    if (!found && (id == kz_me->thread || is_client))
        found = kz_thread_object(id == kz_me->thread ? kz_me->process : kz_first.process, id);
    return found;
}

bool kz_is_process(const void *object)
{
    PEPROCESS one = kz.process->processes;
    while (one && one != object)
        one = one->next;
    return one || object == &system_process;
}

bool kz_is_thread(const void *object)
{
    PETHREAD one = kz.process->threads;
    while (one && one != object)
        one = one->next;
    return one != NULL;
}

/* Begun, and not over. */
bool kz_has_thread(uint64_t process, uint64_t id)
{
    PETHREAD one = kz.process->threads;
    while (one && !(one->id == id && one->process->id == process && !one->header.SignalState))
        one = one->next;
    return one != NULL;
}

void kz_end_thread_object(PETHREAD thread)
{
    thread->header.SignalState = 1;
    kz_scheduler->touch(&thread->header, 0, KZT_GIVES);
}

KzPriority *kz_priority_of(PETHREAD thread)
{
    return &thread->priority;
}

PETHREAD KzCurrentThread(VOID)
{
    KZ_INSIDE_ALONE();
    return kz_thread_object(kz_me->process, kz_me->thread);
}

PEPROCESS PsGetCurrentProcess(VOID)
{
    KZ_INSIDE_ALONE();
    return kz_process(kz_me->process);
}

HANDLE PsGetCurrentProcessId(VOID)
{
    KZ_INSIDE_ALONE();
    return ULongToHandle(kz_me->process);
}

HANDLE PsGetCurrentThreadId(VOID)
{
    KZ_INSIDE_ALONE();
    return ULongToHandle(kz_me->thread);
}

HANDLE PsGetProcessId(PEPROCESS Process)
{
    KZ_INSIDE_ALONE();
    return ULongToHandle(Process->id);
}

HANDLE PsGetThreadId(PETHREAD Thread)
{
    KZ_INSIDE_ALONE();
    return ULongToHandle(Thread->id);
}

HANDLE PsGetThreadProcessId(PETHREAD Thread)
{
    KZ_INSIDE_ALONE();
    return ULongToHandle(Thread->process->id);
}

PEPROCESS IoThreadToProcess(PETHREAD Thread)
{
    KZ_INSIDE_ALONE();
    return Thread->process;
}

PEPROCESS PsGetThreadProcess(PETHREAD Thread)
{
    KZ_INSIDE_ALONE();
    return Thread->process;
}

BOOLEAN PsIsSystemThread(PETHREAD Thread)
{
    KZ_INSIDE_ALONE();
    return Thread->process == PsInitialSystemProcess;
}

BOOLEAN IoIsSystemThread(PETHREAD Thread)
{
    KZ_INSIDE_ALONE();
    return PsIsSystemThread(Thread);
}

PIRP IoGetTopLevelIrp(VOID)
{
    return kz_me->top_level;
}

VOID IoSetTopLevelIrp(PIRP Irp)
{
    kz_me->top_level = Irp;
}

ULONG IoGetRequestorProcessId(PIRP Irp)
{
    KZ_INSIDE_ALONE();
    (void)Irp;
    return (ULONG)kz_me->process;
}

/* The context of legacy filters, which nobody sets. */
PVOID IoGetFileObjectFilterContext(PFILE_OBJECT FileObject)
{
    KZ_INSIDE_ALONE();
    (void)FileObject;
    return NULL;
}

KPROCESSOR_MODE ExGetPreviousMode(VOID)
{
    KZ_INSIDE_ALONE();
    return kz_me->process == system_process.id ? KernelMode : UserMode;
}

static void free_processes(void)
{
    while (kz.process->threads) {
        PETHREAD one = kz.process->threads;
        kz.process->threads = one->next;
        free(one);
    }
    while (kz.process->processes) {
        PEPROCESS one = kz.process->processes;
        kz.process->processes = one->next;
        free(one);
    }
}

const KzModule kz_process_module = {KZ_STATE(process), .free = free_processes};

/* ---- A thread in another process: its addresses are that one's, and so is what PsGetCurrentProcess answers. */
VOID KeStackAttachProcess(PKPROCESS Process, PRKAPC_STATE ApcState)
{
    KZ_INSIDE_ALONE();
    ApcState->Process = kz_process(kz_me->process);
    kz_me->process = Process->id;
}

VOID KeUnstackDetachProcess(PRKAPC_STATE ApcState)
{
    KZ_INSIDE_ALONE();
    kz_me->process = ((PEPROCESS)ApcState->Process)->id;
}
