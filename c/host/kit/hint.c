/* Hints that go along with I/O: how urgent it is, and what activity it belongs to. Nothing here runs sooner by them. */
#include "core/client.h"
#include "core/op.h"
#include "core/process.h"
#include "filesystem/fileobject.h"
#include "manager/operation.h"

static NTSTATUS set(KzPriority *to, IO_PRIORITY_HINT hint)
{
    kz_uses_all();
    if (!to || hint >= MaxIoPriorityTypes)
        return STATUS_INVALID_PARAMETER;
    *to = (KzPriority){true, hint};
    return STATUS_SUCCESS;
}

static IO_PRIORITY_HINT get(const KzPriority *from)
{
    kz_uses_all();
    return from && from->is_set ? from->hint : IoPriorityNormal;
}

static KzPriority *of_data(PFLT_CALLBACK_DATA data)
{
    KzOp *op = kz_op_with(data);
    return op ? &op->priority : NULL;
}

static KzPriority *of_file(PFILE_OBJECT object)
{
    KzFile *file = object ? kz_file_with(object) : NULL;
    return file ? &file->priority : NULL;
}

/* That of the operation, or else of its file, or of its thread. */
IO_PRIORITY_HINT FltGetIoPriorityHint(PFLT_CALLBACK_DATA Data)
{
    KZ_CALL();
    const KzPriority *own = of_data(Data), *file = of_file(Data->Iopb->TargetFileObject), *thread = Data->Thread ? kz_priority_of(Data->Thread) : NULL;
    return get(own && own->is_set ? own : file && file->is_set ? file : thread);
}

IO_PRIORITY_HINT FltGetIoPriorityHintFromCallbackData(PFLT_CALLBACK_DATA Data)
{
    KZ_CALL();
    return get(of_data(Data));
}

IO_PRIORITY_HINT FltGetIoPriorityHintFromFileObject(PFILE_OBJECT FileObject)
{
    KZ_CALL();
    return get(of_file(FileObject));
}

IO_PRIORITY_HINT FltGetIoPriorityHintFromThread(PETHREAD Thread)
{
    KZ_CALL();
    return get(kz_priority_of(Thread));
}

NTSTATUS FltSetIoPriorityHintIntoCallbackData(PFLT_CALLBACK_DATA Data, IO_PRIORITY_HINT PriorityHint)
{
    KZ_CALL();
    return set(of_data(Data), PriorityHint);
}

NTSTATUS FltSetIoPriorityHintIntoFileObject(PFILE_OBJECT FileObject, IO_PRIORITY_HINT PriorityHint)
{
    KZ_CALL();
    return set(of_file(FileObject), PriorityHint);
}

NTSTATUS FltSetIoPriorityHintIntoThread(PETHREAD Thread, IO_PRIORITY_HINT PriorityHint)
{
    KZ_CALL();
    return set(kz_priority_of(Thread), PriorityHint);
}

/* ---- Activities. */
NTSTATUS FltGetActivityIdCallbackData(PFLT_CALLBACK_DATA CallbackData, LPGUID Guid)
{
    KZ_CALL();
    const KzOp *op = kz_op_with(CallbackData);
    kz_uses_all();
    if (!op || !op->has_activity)
        return STATUS_NOT_FOUND;
    kz_gives(Guid);
    *Guid = op->activity;
    return STATUS_SUCCESS;
}

/* None takes it off. */
NTSTATUS FltSetActivityIdCallbackData(PFLT_CALLBACK_DATA CallbackData, LPCGUID Guid)
{
    KZ_CALL();
    KzOp *op = kz_op_with(CallbackData);
    kz_uses_all();
    if (!op)
        return STATUS_INVALID_PARAMETER;
    op->has_activity = Guid != NULL;
    if (Guid)
        op->activity = *Guid;
    return STATUS_SUCCESS;
}
