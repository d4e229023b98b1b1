/* Processes, threads and images begin and end by requests, and by programs: the routines that drivers registered are called then. */
#include "kit/notify.h"

#include "cache/image.h"
#include "core/client.h"
#include "core/clock.h"
#include "core/piece.h"
#include "core/process.h"
#include "core/state.h"
#include "core/status.h"
#include "lib/letters.h"
#include "filesystem/name.h"
#include "kit/cancel.h"
#include "kit/routine.h"

/* ---- Registering. */
static NTSTATUS add(KzRoutineKind kind, PVOID routine, const char *call)
{
    return kz_add_routine(&(KzRoutine){.kind = kind, .routine = routine}, call, NULL);
}

static NTSTATUS take_off(KzRoutineKind kind, PVOID routine)
{
    KzRoutine *gone = kz_routine_of(kind, routine);
    if (gone)
        kz_take_off_routine(gone);
    return gone ? STATUS_SUCCESS : STATUS_PROCEDURE_NOT_FOUND;
}

NTSTATUS PsSetCreateProcessNotifyRoutine(PCREATE_PROCESS_NOTIFY_ROUTINE NotifyRoutine, BOOLEAN Remove)
{
    KZ_CALL();
    return Remove ? take_off(KZR_PROCESS, (PVOID)NotifyRoutine) : add(KZR_PROCESS, (PVOID)NotifyRoutine, __func__);
}

NTSTATUS PsSetCreateProcessNotifyRoutineEx(PCREATE_PROCESS_NOTIFY_ROUTINE_EX NotifyRoutine, BOOLEAN Remove)
{
    KZ_CALL();
    return Remove ? take_off(KZR_PROCESS_EX, (PVOID)NotifyRoutine) : add(KZR_PROCESS_EX, (PVOID)NotifyRoutine, __func__);
}

NTSTATUS PsSetCreateProcessNotifyRoutineEx2(PSCREATEPROCESSNOTIFYTYPE NotifyType, PVOID NotifyInformation, BOOLEAN Remove)
{
    KZ_CALL();
    if (NotifyType != PsCreateProcessNotifySubsystems)
        return STATUS_INVALID_PARAMETER;
    return Remove ? take_off(KZR_PROCESS_EX, NotifyInformation) : add(KZR_PROCESS_EX, NotifyInformation, __func__);
}

NTSTATUS PsSetCreateThreadNotifyRoutine(PCREATE_THREAD_NOTIFY_ROUTINE NotifyRoutine)
{
    KZ_CALL();
    return add(KZR_THREAD, (PVOID)NotifyRoutine, __func__);
}

/* The routine hears of a thread's beginning in that thread. */
NTSTATUS PsSetCreateThreadNotifyRoutineEx(PSCREATETHREADNOTIFYTYPE NotifyType, PVOID NotifyInformation)
{
    KZ_CALL();
    if (NotifyType != PsCreateThreadNotifyNonSystem && NotifyType != PsCreateThreadNotifySubsystems)
        return STATUS_INVALID_PARAMETER;
    return kz_add_routine(&(KzRoutine){.kind = KZR_THREAD, .routine = NotifyInformation, .context = NotifyInformation}, __func__, NULL);
}

NTSTATUS PsRemoveCreateThreadNotifyRoutine(PCREATE_THREAD_NOTIFY_ROUTINE NotifyRoutine)
{
    KZ_CALL();
    return take_off(KZR_THREAD, (PVOID)NotifyRoutine);
}

NTSTATUS PsSetLoadImageNotifyRoutine(PLOAD_IMAGE_NOTIFY_ROUTINE NotifyRoutine)
{
    KZ_CALL();
    return add(KZR_IMAGE, (PVOID)NotifyRoutine, __func__);
}

NTSTATUS PsSetLoadImageNotifyRoutineEx(PLOAD_IMAGE_NOTIFY_ROUTINE NotifyRoutine, ULONG_PTR Flags)
{
    KZ_CALL();
    (void)Flags;
    return add(KZR_IMAGE, (PVOID)NotifyRoutine, __func__);
}

NTSTATUS PsRemoveLoadImageNotifyRoutine(PLOAD_IMAGE_NOTIFY_ROUTINE NotifyRoutine)
{
    KZ_CALL();
    return take_off(KZR_IMAGE, (PVOID)NotifyRoutine);
}

/* ---- Calling them. */
typedef struct {
    uint64_t process, thread;
} Who;

static Who act_as(uint64_t process, uint64_t thread)
{
    Who before = {kz_me->process, kz_me->thread};
    kz_me->process = process;
    kz_me->thread = thread;
    return before;
}

static void tell_process(PEPROCESS process, PPS_CREATE_NOTIFY_INFO info)
{
    HANDLE id = ULongToHandle(process->id), parent = ULongToHandle(process->parent);
    KzCallees callees;
    kz_callees(KZR_PROCESS, KZR_PROCESS_EX, &callees);
    for (unsigned at = 0; at < callees.count; at++) {
        KzRoutine *one = kz_callee(&callees, at);
        if (!one)
            continue;
        PVOID routine = one->routine;
        KzRoutineCall call = kz_begin_routine(one, routine);
        if (one->kind == KZR_PROCESS)
            KZ_CALL_DRIVER(((PCREATE_PROCESS_NOTIFY_ROUTINE)routine), parent, id, info != NULL);
        else
            KZ_CALL_DRIVER(((PCREATE_PROCESS_NOTIFY_ROUTINE_EX)routine), process, id, info);
        kz_end_routine(&call);
    }
}

/* A thread begins in the one that makes it, for all but those that registered with `Ex`: these hear of it in itself. */
static void tell_thread(uint64_t process, uint64_t thread, bool begins)
{
    KzCallees callees;
    kz_callees(KZR_THREAD, KZR_THREAD, &callees);
    for (unsigned at = 0; at < callees.count; at++) {
        KzRoutine *one = kz_callee(&callees, at);
        if (!one)
            continue;
        Who before = {kz_me->process, kz_me->thread};
        PVOID routine = one->routine;
        if (!begins || one->context)
            act_as(process, thread);
        KzRoutineCall call = kz_begin_routine(one, routine);
        KZ_CALL_DRIVER(((PCREATE_THREAD_NOTIFY_ROUTINE)routine), ULongToHandle(process), ULongToHandle(thread), begins);
        kz_end_routine(&call);
        act_as(before.process, before.thread);
    }
}

static void tell_image(uint64_t process, PUNICODE_STRING name, PFILE_OBJECT file)
{
    IMAGE_INFO_EX info = {.Size = sizeof info, .FileObject = file};
    KzCallees callees;
    info.ImageInfo = (IMAGE_INFO){.ImageBase = (PVOID)0x140000000, .ImageSize = 0x1000};
    info.ImageInfo.ImageAddressingMode = IMAGE_ADDRESSING_MODE_32BIT;
    info.ImageInfo.SystemModeImage = process == 0;
    info.ImageInfo.ExtendedInfoPresent = file != NULL;
    kz_callees(KZR_IMAGE, KZR_IMAGE, &callees);
    for (unsigned at = 0; at < callees.count; at++) {
        KzRoutine *one = kz_callee(&callees, at);
        if (!one)
            continue;
        PVOID routine = one->routine;
        KzRoutineCall call = kz_begin_routine(one, routine);
        KZ_CALL_DRIVER(((PLOAD_IMAGE_NOTIFY_ROUTINE)routine), name, ULongToHandle(process), &info.ImageInfo);
        kz_end_routine(&call);
    }
}

/* ---- Requests. */
void kz_thread_begins(uint64_t process, uint64_t thread)
{
    kz_thread_object(process, thread);
    tell_thread(process, thread, true);
}

void kz_thread_ends(uint64_t process, uint64_t thread)
{
    tell_thread(process, thread, false);
    kz_end_thread_object(kz_thread_object(process, thread));
}

uint32_t kz_begin_process(uint64_t id, uint64_t parent, const char *image, NTSTATUS *other)
{
    PEPROCESS process = kz_process(id);
    UNICODE_STRING name;
    *other = STATUS_SUCCESS;
    process->parent = parent;
    process->is_over = false;
    process->created = kz_time();
    snprintf(process->image, sizeof process->image, "%s%s", image[0] == '/' ? "" : "/Device/v0/", image);
    if (!kz_give_name(&name, process->image, true))
        return KZS_NO_MEMORY;
    PS_CREATE_NOTIFY_INFO info = {.Size = sizeof info,
                                  .Flags = 1, /* FileOpenNameAvailable */
                                  .ParentProcessId = ULongToHandle(parent),
                                  .CreatingThreadId = {ULongToHandle(kz_me->process), ULongToHandle(kz_me->thread)},
                                  .ImageFileName = &name,
                                  .CommandLine = &name};
    tell_process(process, &info);
    bool is_exact = true;
    uint32_t status = NT_SUCCESS(info.CreationStatus) ? KZS_OK : kz_number(info.CreationStatus, &is_exact);
    *other = is_exact ? STATUS_SUCCESS : info.CreationStatus;
    if (status == KZS_OK) {
        kz_thread_begins(id, id + 4);
        tell_image(id, &name, NULL);
    }
    process->is_over = status != KZS_OK;
    kz_give_back(name.Buffer);
    return status;
}

/* What it waits for is cancelled, and then its end is told: that of its first thread, and its own. */
uint32_t kz_end_process(uint64_t id)
{
    PEPROCESS process = kz_process(id);
    if (process->is_over)
        return KZS_FILE_NOT_FOUND;
    kz_cancel_of(id);
    Who before = act_as(id, id + 4);
    tell_thread(id, id + 4, false);
    tell_process(process, NULL);
    act_as(before.process, before.thread);
    process->is_over = true;
    kz_end_images(id);
    return KZS_OK;
}

/* Its file is open meanwhile. */
void kz_image_loads(uint64_t process, const KzFile *file)
{
    char text[400];
    UNICODE_STRING name;
    snprintf(text, sizeof text, "/Device/%s/%s", file->volume->name, kz_name_now(file));
    if (!kz_give_name(&name, text, true))
        return;
    tell_image(process, &name, (PFILE_OBJECT)&file->object);
    kz_give_back(name.Buffer);
}
