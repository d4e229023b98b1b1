/* What a driver asks of its callback data: whether it is dirty, where its buffer is, and who asked for the operation. */
#include "core/access.h"
#include "core/client.h"
#include "core/held.h"
#include "core/op.h"
#include "core/told.h"
#include "filesystem/fileobject.h"
#include "manager/block.h"
#include "manager/buffer.h"
#include "manager/operation.h"

VOID FltSetCallbackDataDirty(PFLT_CALLBACK_DATA Data)
{
    KZ_INSIDE();
    if (kz_me->place.op && kz_me->place.op->data == Data)
        kz_uses_little();
    Data->Flags |= FLTFL_CALLBACK_DATA_DIRTY;
}

VOID FltClearCallbackDataDirty(PFLT_CALLBACK_DATA Data)
{
    KZ_INSIDE_ALONE();
    kz_uses_object(kz_op_with(Data), KZU_WRITES);
    kz_uses_object(Data, KZU_WRITES);
    Data->Flags &= ~FLTFL_CALLBACK_DATA_DIRTY;
}

BOOLEAN FltIsCallbackDataDirty(PFLT_CALLBACK_DATA Data)
{
    if (!kz_me->place.op || kz_me->place.op->data != Data)
        kz_uses_all();
    return (Data->Flags & FLTFL_CALLBACK_DATA_DIRTY) != 0;
}

/* A description of the buffer, which the manager frees. It changes no parameter. */
NTSTATUS FltLockUserBuffer(PFLT_CALLBACK_DATA CallbackData)
{
    KZ_INSIDE_ALONE();
    kz_uses_object(kz_op_with(CallbackData), KZU_WRITES);
    PMDL *mdl;
    PVOID *buffer;
    PULONG length;
    KzOp *op = kz_op_with(CallbackData);
    if (!op) {
        kz_tell(KZM_NOT_OWN_DATA, __func__, "callback data of no operation");
        return STATUS_INVALID_PARAMETER;
    }
    NTSTATUS status = FltDecodeParameters(CallbackData, &mdl, &buffer, &length, NULL);
    if (!NT_SUCCESS(status) || !mdl || *mdl || !*buffer || !*length)
        return status;
    PFLT_FILTER filter = kz_me->place.filter;
    kz_me->place.filter = NULL;
    PMDL made = IoAllocateMdl(*buffer, *length, FALSE, FALSE, NULL);
    if (made) {
        made->MdlFlags |= MDL_PAGES_LOCKED;
        kz_map_pages(*buffer, true);
        kz_keep_mdl(op, made);
        *mdl = made;
        *(PMDL *)((PUCHAR)&op->shown.parameters + ((PUCHAR)mdl - (PUCHAR)op->iopb)) = made;
        if (op->visits && *buffer == op->visits->received)
            op->visits->received_mdl = made;
    }
    kz_me->place.filter = filter;
    return made ? STATUS_SUCCESS : STATUS_INSUFFICIENT_RESOURCES;
}

PVOID FltGetSwappedBufferMdlAddress(PFLT_CALLBACK_DATA CallbackData)
{
    KZ_INSIDE_ALONE();
    kz_uses_object(kz_op_with(CallbackData), KZU_READS);
    KzOp *op = kz_op_with(CallbackData);
    return op && op->mdls ? op->mdls->mdl : NULL;
}

/* The driver frees it itself. */
VOID FltRetainSwappedBufferMdlAddress(PFLT_CALLBACK_DATA CallbackData)
{
    KZ_INSIDE_ALONE();
    kz_uses_object(kz_op_with(CallbackData), KZU_WRITES);
    KzOp *op = kz_op_with(CallbackData);
    if (op && op->mdls)
        op->mdls->mdl = NULL;
}

/* Whether the callback must wait until its postoperation has returned. */
static bool puts_off(const char *call, const void *from, PFLT_CALLBACK_DATA data, KzSafe safe)
{
    KZ_INSIDE_FROM(call, from);
    kz_uses_own();
    kz_uses_object(kz_op_with(data), KZU_WRITES);
    if (safe.flags & FLTFL_POST_OPERATION_DRAINING) {
        kz_tell(KZM_HELD_DRAIN, call, "in a drain, where it mustn't be called");
        return false;
    }
    KzOp *op = kz_irql() > APC_LEVEL ? kz_op_with(data) : NULL;
    if (op)
        op->safe = safe;
    return op != NULL;
}

BOOLEAN FltDoCompletionProcessingWhenSafe(PFLT_CALLBACK_DATA Data, PCFLT_RELATED_OBJECTS FltObjects, PVOID CompletionContext, FLT_POST_OPERATION_FLAGS Flags,
                                          PFLT_POST_OPERATION_CALLBACK SafePostCallback, PFLT_POSTOP_CALLBACK_STATUS RetPostOperationStatus)
{
    if (puts_off(__func__, KZ_CALLER(), Data, (KzSafe){SafePostCallback, CompletionContext, Flags})) {
        *RetPostOperationStatus = FLT_POSTOP_MORE_PROCESSING_REQUIRED;
        return TRUE;
    }
    if (Flags & FLTFL_POST_OPERATION_DRAINING) {
        *RetPostOperationStatus = FLT_POSTOP_FINISHED_PROCESSING;
        return FALSE;
    }
    *RetPostOperationStatus = KZ_CALL_DRIVER(SafePostCallback, Data, FltObjects, CompletionContext, Flags);
    return TRUE;
}

HANDLE FltGetRequestorProcessIdEx(PFLT_CALLBACK_DATA CallbackData)
{
    KZ_INSIDE_ALONE();
    return PsGetThreadProcessId(CallbackData->Thread);
}

ULONG FltGetRequestorProcessId(PFLT_CALLBACK_DATA CallbackData)
{
    KZ_INSIDE_ALONE();
    return HandleToULong(FltGetRequestorProcessIdEx(CallbackData));
}

PEPROCESS FltGetRequestorProcess(PFLT_CALLBACK_DATA CallbackData)
{
    KZ_INSIDE_ALONE();
    return IoThreadToProcess(CallbackData->Thread);
}

NTSTATUS FltGetRequestorSessionId(PFLT_CALLBACK_DATA CallbackData, PULONG SessionId)
{
    (void)CallbackData;
    *SessionId = 1;
    return STATUS_SUCCESS;
}

/* Of an IRP, in its preoperation. The routine is called once the file system's call has returned: behind the postoperations, if it didn't wait. */
NTSTATUS FltRequestOperationStatusCallback(PFLT_CALLBACK_DATA Data, PFLT_GET_OPERATION_STATUS_CALLBACK CallbackRoutine, PVOID RequesterContext)
{
    KZ_INSIDE_ALONE();
    kz_uses_object(kz_op_with(Data), KZU_WRITES);
    KzOp *op = kz_me->place.op;
    if (!op || op->data != Data || kz_me->place.callback != KZ_IN_PRE || !(Data->Flags & FLTFL_CALLBACK_DATA_IRP_OPERATION)) {
        kz_tell(KZM_NOT_OWN_DATA, __func__, "of no IRP in its preoperation");
        return STATUS_INVALID_PARAMETER;
    }
    if (kz_refuses(KZ_CHOICE_POOL, __func__))
        return STATUS_INSUFFICIENT_RESOURCES;
    KzWantsStatus *made = kz_block(op, sizeof *made);
    *made = (KzWantsStatus){op->wants, kz_me->place.instance, (const void *)(uintptr_t)CallbackRoutine, RequesterContext, *Data->Iopb};
    op->wants = made;
    return STATUS_SUCCESS;
}

NTSTATUS FltIsDirectory(PFILE_OBJECT FileObject, PFLT_INSTANCE Instance, PBOOLEAN IsDirectory)
{
    KZ_INSIDE_ALONE();
    kz_gives(IsDirectory);
    (void)Instance;
    KzFile *file = kz_file_with(FileObject);
    const KzOp *op = kz_me->place.op;
    if (file && op && op->file == file && op->event == KZE_CREATE && !file->has_handle && !file->is_opening) {
        kz_tell(KZM_NOT_OPENED, __func__, "a file object that isn't open: its create isn't answered yet, or failed");
        return STATUS_INVALID_PARAMETER;
    }
    *IsDirectory = file && file->is_directory && !file->is_volume;
    return file ? STATUS_SUCCESS : STATUS_INVALID_PARAMETER;
}

/* The calls of the system that have no other form, and those by a handle, or for a caller, that waits. */
BOOLEAN FltIsOperationSynchronous(PFLT_CALLBACK_DATA CallbackData)
{
    KZ_INSIDE_ALONE();
    const KzOp *op = kz_op_with(CallbackData);
    UCHAR major = CallbackData->Iopb->MajorFunction;
    bool may_wait = major == IRP_MJ_READ || major == IRP_MJ_WRITE || major == IRP_MJ_FILE_SYSTEM_CONTROL || major == IRP_MJ_DEVICE_CONTROL || major == IRP_MJ_LOCK_CONTROL || major == IRP_MJ_DIRECTORY_CONTROL;
    bool is_irp = CallbackData->Flags & FLTFL_CALLBACK_DATA_IRP_OPERATION;
    return !op || !is_irp || !may_wait || CallbackData->Iopb->IrpFlags & IRP_SYNCHRONOUS_PAGING_IO || kz_is_synchronous(op);
}

/* No process of 32 bits is there. */
BOOLEAN FltIs32bitProcess(PFLT_CALLBACK_DATA CallbackData)
{
    (void)CallbackData;
    return FALSE;
}
