/* A filter's own locks of bytes, as a file system has its: its preoperation hands each request for one over. */
#include "kit/filelock.h"

#include "core/client.h"
#include "core/memory.h"
#include "core/module.h"
#include "core/op.h"
#include "core/state.h"
#include "filesystem/ranges.h"
#include "manager/operation.h"

#include <stdlib.h>

/* A request that waits for a lock; its filter pends it. */
typedef struct Wanted {
    struct Wanted *next;
    KzOp *op;
    PVOID context;
    KzRange range;
} Wanted;

/* What a FILE_LOCK stands for. */
typedef struct Own {
    struct Own *next;
    PFILE_LOCK at;
    PFLT_COMPLETE_LOCK_CALLBACK_DATA_ROUTINE completes;
    KzHeldRange *held;
    Wanted *wanted; /* who waits longest first */
} Own;

struct KzFileLockState {
    Own *first;
};

static Own *own_of(PFILE_LOCK at)
{
    Own *one = kz.filelock->first;
    while (one && one->at != at)
        one = one->next;
    return one;
}

/* What stood there before was other memory. */
static void forget(PFILE_LOCK at)
{
    Own **place = &kz.filelock->first;
    while (*place && (*place)->at != at)
        place = &(*place)->next;
    Own *gone = *place;
    if (!gone)
        return;
    *place = gone->next;
    for (KzHeldRange *one; (one = gone->held); free(one))
        gone->held = one->next;
    for (Wanted *one; (one = gone->wanted); free(one))
        gone->wanted = one->next;
    free(gone);
}

static void make(PFILE_LOCK at, PFLT_COMPLETE_LOCK_CALLBACK_DATA_ROUTINE completes, PUNLOCK_ROUTINE unlocks)
{
    forget(at);
    Own *made = kz_memory(sizeof *made);
    *made = (Own){.next = kz.filelock->first, .at = at, .completes = completes};
    kz.filelock->first = made;
    *at = (FILE_LOCK){.UnlockRoutine = unlocks};
}

/* ---- What its driver hears. */
static NTSTATUS completed(const Own *own, PFLT_CALLBACK_DATA data, PVOID context, NTSTATUS status)
{
    data->IoStatus = (IO_STATUS_BLOCK){.Status = status};
    if (!own->completes)
        return status;
    unsigned depth = kz_let_driver("completion of a lock", (PVOID)own->completes);
    NTSTATUS said = KZ_CALL_DRIVER(own->completes, context, data);
    kz_driver_returned(depth, "completion of a lock returns");
    return data->IoStatus.Status = NT_SUCCESS(status) ? said : status;
}

/* It frees the lock. */
static void unlocked(const Own *own, KzHeldRange *gone, PVOID context)
{
    FILE_LOCK_INFO info = {.StartingByte.QuadPart = (LONGLONG)gone->range.from, .Length.QuadPart = (LONGLONG)gone->range.length, .ExclusiveLock = gone->range.is_exclusive, .Key = gone->range.key,
                           .FileObject = (PFILE_OBJECT)(uintptr_t)gone->owner, .EndingByte.QuadPart = (LONGLONG)(gone->range.from + gone->range.length - 1)};
    PUNLOCK_ROUTINE routine = own->at->UnlockRoutine;
    free(gone);
    if (!routine)
        return;
    unsigned depth = kz_let_driver("unlock", (PVOID)routine);
    KZ_CALL_DRIVER(routine, context, &info);
    kz_driver_returned(depth, "unlock returns");
}

/* ---- Locks. Whose completion routine refuses one loses it again. */
static NTSTATUS hold(Own *own, const KzOp *op, const KzRange *range)
{
    return kz_hold_range(&own->held, &op->file->object, range);
}

static NTSTATUS settled(Own *own, KzOp *op, PVOID context, const KzRange *range, NTSTATUS status)
{
    NTSTATUS said = completed(own, op->data, context, status);
    KzHeldRange *gone = NT_SUCCESS(status) && !NT_SUCCESS(said) ? kz_take_range(&own->held, &op->file->object, range) : NULL;
    if (gone)
        unlocked(own, gone, context);
    own->at->FastIoIsQuestionable = own->held != NULL;
    return said;
}

static void end_wanted(Own *own, Wanted *one, NTSTATUS status)
{
    Wanted **at = &own->wanted;
    while (*at != one)
        at = &(*at)->next;
    *at = one->next;
    KzOp *op = one->op;
    op->cancel.host = NULL;
    settled(own, op, one->context, &one->range, status);
    free(one);
    FltCompletePendedPreOperation(op->data, FLT_PREOP_COMPLETE, NULL);
}

static void grant(Own *own)
{
    for (Wanted *one = own->wanted, *next; one; one = next) {
        next = one->next;
        if (NT_SUCCESS(hold(own, one->op, &one->range)))
            end_wanted(own, one, STATUS_SUCCESS);
    }
}

static Wanted *wanted_by(const KzOp *op, Own **own)
{
    for (*own = kz.filelock->first; *own; *own = (*own)->next)
        for (Wanted *one = (*own)->wanted; one; one = one->next)
            if (one->op == op)
                return one;
    return NULL;
}

static void cancel(KzOp *op)
{
    Own *own;
    Wanted *one = wanted_by(op, &own);
    if (one)
        end_wanted(own, one, STATUS_CANCELLED);
}

static FLT_PREOP_CALLBACK_STATUS wait(Own *own, KzOp *op, PVOID context, const KzRange *range)
{
    Wanted *made = kz_memory(sizeof *made), **end = &own->wanted;
    *made = (Wanted){.op = op, .context = context, .range = *range};
    while (*end)
        end = &(*end)->next;
    *end = made;
    op->cancel.host = cancel;
    return FLT_PREOP_PENDING;
}

static NTSTATUS unlock_all(Own *own, const void *owner, const ULONG *key, PVOID context)
{
    for (KzHeldRange *gone; (gone = kz_take_any_range(&own->held, owner, key));)
        unlocked(own, gone, context);
    grant(own);
    own->at->FastIoIsQuestionable = own->held != NULL;
    return STATUS_SUCCESS;
}

static NTSTATUS unlock(Own *own, const KzOp *op, PVOID context, const KzRange *range)
{
    KzHeldRange *gone = kz_take_range(&own->held, &op->file->object, range);
    if (!gone)
        return STATUS_RANGE_NOT_LOCKED;
    unlocked(own, gone, context);
    grant(own);
    own->at->FastIoIsQuestionable = own->held != NULL;
    return STATUS_SUCCESS;
}

static FLT_PREOP_CALLBACK_STATUS process(Own *own, KzOp *op, PVOID context)
{
    const FLT_PARAMETERS *now = &op->iopb->Parameters;
    KzRange range = {(uint64_t)now->LockControl.ByteOffset.QuadPart, now->LockControl.Length ? (uint64_t)now->LockControl.Length->QuadPart : 0, now->LockControl.ExclusiveLock, now->LockControl.Key};
    UCHAR minor = op->iopb->MinorFunction;
    NTSTATUS status = STATUS_INVALID_DEVICE_REQUEST;
    if (minor == IRP_MN_LOCK)
        status = hold(own, op, &range);
    else if (minor == IRP_MN_UNLOCK_SINGLE)
        status = unlock(own, op, context, &range);
    else if (minor == IRP_MN_UNLOCK_ALL || minor == IRP_MN_UNLOCK_ALL_BY_KEY)
        status = unlock_all(own, &op->file->object, minor == IRP_MN_UNLOCK_ALL ? NULL : &range.key, context);
    if (status == STATUS_LOCK_NOT_GRANTED && !now->LockControl.FailImmediately)
        return wait(own, op, context, &range);
    if (minor == IRP_MN_LOCK)
        settled(own, op, context, &range, status);
    else
        completed(own, op->data, context, status);
    return FLT_PREOP_COMPLETE;
}

/* ---- The kit's calls. */
VOID FltInitializeFileLock(PFILE_LOCK FileLock)
{
    KZ_INSIDE();
    kz_uses_all();
    make(FileLock, NULL, NULL);
}

VOID FltUninitializeFileLock(PFILE_LOCK FileLock)
{
    KZ_CALL();
    Own *own = own_of(FileLock);
    kz_uses_all();
    while (own && own->wanted)
        end_wanted(own, own->wanted, STATUS_RANGE_NOT_LOCKED);
    forget(FileLock);
}

PFILE_LOCK FltAllocateFileLock(PFLT_COMPLETE_LOCK_CALLBACK_DATA_ROUTINE CompleteLockCallbackDataRoutine, PUNLOCK_ROUTINE UnlockRoutine)
{
    KZ_INSIDE();
    kz_uses_all();
    PFILE_LOCK made = ExAllocatePoolZero(PagedPool, sizeof *made, 'lFtF');
    if (made)
        make(made, CompleteLockCallbackDataRoutine, UnlockRoutine);
    return made;
}

VOID FltFreeFileLock(PFILE_LOCK FileLock)
{
    KZ_CALL();
    FltUninitializeFileLock(FileLock);
    ExFreePool(FileLock);
}

FLT_PREOP_CALLBACK_STATUS FltProcessFileLock(PFILE_LOCK FileLock, PFLT_CALLBACK_DATA CallbackData, PVOID Context)
{
    KZ_CALL();
    kz_uses_all();
    KzOp *op = kz_op_with(CallbackData);
    Own *own = own_of(FileLock);
    if (op && own && op->opaque && op->opaque->major == IRP_MJ_LOCK_CONTROL)
        return process(own, op, Context);
    CallbackData->IoStatus = (IO_STATUS_BLOCK){.Status = STATUS_INVALID_DEVICE_REQUEST};
    return FLT_PREOP_COMPLETE;
}

static BOOLEAN may(PFILE_LOCK lock, uint64_t from, uint64_t length, ULONG key, const void *owner, bool is_write)
{
    const Own *own = own_of(lock);
    kz_uses_all();
    return !own || !kz_is_held_against(own->held, owner, &key, from, length, is_write);
}

BOOLEAN FltCheckLockForReadAccess(PFILE_LOCK FileLock, PFLT_CALLBACK_DATA CallbackData)
{
    KZ_CALL();
    const FLT_PARAMETERS *now = &CallbackData->Iopb->Parameters;
    return may(FileLock, (uint64_t)now->Read.ByteOffset.QuadPart, now->Read.Length, now->Read.Key, CallbackData->Iopb->TargetFileObject, false);
}

BOOLEAN FltCheckLockForWriteAccess(PFILE_LOCK FileLock, PFLT_CALLBACK_DATA CallbackData)
{
    KZ_CALL();
    const FLT_PARAMETERS *now = &CallbackData->Iopb->Parameters;
    return may(FileLock, (uint64_t)now->Write.ByteOffset.QuadPart, now->Write.Length, now->Write.Key, CallbackData->Iopb->TargetFileObject, true);
}

/* ---- Those of a file system, but for requests by IRPs. */
VOID FsRtlInitializeFileLock(PFILE_LOCK FileLock, PCOMPLETE_LOCK_IRP_ROUTINE CompleteLockIrpRoutine, PUNLOCK_ROUTINE UnlockRoutine)
{
    KZ_INSIDE();
    kz_uses_all();
    make(FileLock, NULL, UnlockRoutine);
    FileLock->CompleteLockIrpRoutine = CompleteLockIrpRoutine;
}

VOID FsRtlUninitializeFileLock(PFILE_LOCK FileLock)
{
    FltUninitializeFileLock(FileLock);
}

NTSTATUS FsRtlFastUnlockAll(PFILE_LOCK FileLock, PFILE_OBJECT FileObject, PEPROCESS Process, PVOID Context)
{
    KZ_CALL();
    (void)Process;
    kz_uses_all();
    Own *own = own_of(FileLock);
    return own ? unlock_all(own, FileObject, NULL, Context) : STATUS_RANGE_NOT_LOCKED;
}

BOOLEAN FsRtlFastCheckLockForRead(PFILE_LOCK FileLock, PLARGE_INTEGER FileOffset, PLARGE_INTEGER Length, ULONG Key, PFILE_OBJECT FileObject, PVOID Process)
{
    KZ_CALL();
    (void)Process;
    return may(FileLock, (uint64_t)FileOffset->QuadPart, (uint64_t)Length->QuadPart, Key, FileObject, false);
}

BOOLEAN FsRtlFastCheckLockForWrite(PFILE_LOCK FileLock, PLARGE_INTEGER FileOffset, PLARGE_INTEGER Length, ULONG Key, PFILE_OBJECT FileObject, PVOID Process)
{
    KZ_CALL();
    (void)Process;
    return may(FileLock, (uint64_t)FileOffset->QuadPart, (uint64_t)Length->QuadPart, Key, FileObject, true);
}

/* ---- The end. */
static void forget_op(KzOp *op)
{
    Own *own;
    Wanted *one = kz.filelock->first ? wanted_by(op, &own) : NULL;
    if (!one)
        return;
    Wanted **at = &own->wanted;
    while (*at != one)
        at = &(*at)->next;
    *at = one->next;
    free(one);
}

static void free_all(void)
{
    while (kz.filelock->first)
        forget(kz.filelock->first->at);
}

const KzModule kz_filelock_module = {KZ_STATE(filelock), .free = free_all, .operation_ends = forget_op};
