/* Operations that a filter makes up by itself, in callback data of its own; and those of a callback that it sends down again. */
#include "core/client.h"
#include "core/op.h"
#include "core/piece.h"
#include "core/told.h"
#include "filesystem/name.h"
#include "manager/below.h"
#include "manager/disposition.h"
#include "manager/instance.h"
#include "manager/operation.h"
#include "kit/asyncio.h"
#include "kit/control.h"
#include "kit/information.h"
#include "kit/io.h"

enum { TAG = 'dcMF' };

/* Both lie in one piece of a pool. */
typedef struct {
    FLT_CALLBACK_DATA data;
    FLT_IO_PARAMETER_BLOCK iopb;
} Made;

static void fill(Made *made, PFLT_INSTANCE instance, PFILE_OBJECT object)
{
    FLT_CALLBACK_DATA data = {.Flags = FLTFL_CALLBACK_DATA_IRP_OPERATION | FLTFL_CALLBACK_DATA_GENERATED_IO,
                              .Thread = PsGetCurrentThread(),
                              .Iopb = &made->iopb,
                              .RequestorMode = KernelMode};
    memset(&made->iopb, 0, sizeof made->iopb);
    made->iopb.TargetInstance = instance;
    made->iopb.TargetFileObject = object;
    memcpy(&made->data, &data, sizeof data);
}

static Made *made_of(PFLT_CALLBACK_DATA data, const char *call)
{
    KzPiece *piece = kz_piece_of(data);
    if (piece && piece->kind == KZK_POOL && piece->tag == TAG)
        return (Made *)data;
    kz_tell(KZM_NOT_OWN_DATA, call, "callback data that FltAllocateCallbackData didn't give (freed twice?)");
    return NULL;
}

NTSTATUS FltAllocateCallbackData(PFLT_INSTANCE Instance, PFILE_OBJECT FileObject, PFLT_CALLBACK_DATA *RetNewCallbackData)
{
    KZ_CALL();
    *RetNewCallbackData = NULL;
    if (!Instance || !kz_may_use(__func__, Instance))
        return STATUS_INVALID_PARAMETER;
    Made *made = ExAllocatePoolZero(NonPagedPool, sizeof *made, TAG);
    if (!made)
        return STATUS_INSUFFICIENT_RESOURCES;
    fill(made, Instance, FileObject);
    *RetNewCallbackData = &made->data;
    return STATUS_SUCCESS;
}

VOID FltFreeCallbackData(PFLT_CALLBACK_DATA CallbackData)
{
    KZ_CALL();
    Made *made = made_of(CallbackData, __func__);
    if (made && kz_own_op(CallbackData))
        kz_tell(KZM_NOT_OWN_DATA, __func__, "callback data of an operation that isn't over");
    else if (made)
        kz_give_back(made);
}

VOID FltReuseCallbackData(PFLT_CALLBACK_DATA CallbackData)
{
    KZ_CALL();
    Made *made = made_of(CallbackData, __func__);
    if (made)
        fill(made, made->iopb.TargetInstance, made->iopb.TargetFileObject);
}

/* ---- Carrying them out. */
static FLT_IO_OPERATION_FLAGS flags_of(ULONG irp_flags)
{
    FLT_IO_OPERATION_FLAGS flags = FLTFL_IO_OPERATION_DO_NOT_UPDATE_BYTE_OFFSET;
    flags |= irp_flags & IRP_NOCACHE ? FLTFL_IO_OPERATION_NON_CACHED : 0;
    return flags | (irp_flags & IRP_PAGING_IO ? FLTFL_IO_OPERATION_PAGING : 0);
}

static PVOID address_of(PMDL mdl, PVOID buffer)
{
    return mdl ? MmGetMdlVirtualAddress(mdl) : buffer;
}

static KzTransfer transfer_of(PFLT_INSTANCE instance, PFLT_IO_PARAMETER_BLOCK iopb, PULONG done, const char *call)
{
    FLT_PARAMETERS *now = &iopb->Parameters;
    KzTransfer one = {.instance = instance, .object = iopb->TargetFileObject, .flags = flags_of(iopb->IrpFlags), .done = done, .call = call};
    bool is_read = iopb->MajorFunction == IRP_MJ_READ;
    one.offset = is_read ? &now->Read.ByteOffset : &now->Write.ByteOffset;
    one.length = is_read ? now->Read.Length : now->Write.Length;
    one.buffer = is_read ? address_of(now->Read.MdlAddress, now->Read.ReadBuffer) : address_of(now->Write.MdlAddress, now->Write.WriteBuffer);
    return one;
}

static NTSTATUS carry_out(PFLT_INSTANCE instance, PFLT_IO_PARAMETER_BLOCK iopb, PULONG done, const char *call)
{
    FLT_PARAMETERS *now = &iopb->Parameters;
    PFILE_OBJECT object = iopb->TargetFileObject;
    *done = 0;
    switch (iopb->MajorFunction) {
    case IRP_MJ_READ:
    case IRP_MJ_WRITE: {
        KzTransfer one = transfer_of(instance, iopb, done, call);
        return kz_transfer(&one, iopb->MajorFunction == IRP_MJ_WRITE);
    }
    case IRP_MJ_FLUSH_BUFFERS:
        return kz_flush_below(instance, object, call);
    case IRP_MJ_QUERY_INFORMATION:
        return kz_query_below(instance, object, now->QueryFileInformation.InfoBuffer, now->QueryFileInformation.Length, now->QueryFileInformation.FileInformationClass, done, call);
    case IRP_MJ_SET_INFORMATION:
        return kz_set_below(instance, object, now->SetFileInformation.InfoBuffer, now->SetFileInformation.Length, now->SetFileInformation.FileInformationClass, call);
    default:
        return kz_ask_as(instance, iopb, done, call);
    }
}

VOID FltPerformSynchronousIo(PFLT_CALLBACK_DATA CallbackData)
{
    KZ_CALL();
    ULONG done;
    if (!made_of(CallbackData, __func__))
        return;
    CallbackData->IoStatus.Status = carry_out(CallbackData->Iopb->TargetInstance, CallbackData->Iopb, &done, __func__);
    CallbackData->IoStatus.Information = done;
}

/* A read, a write or a control code of a file system isn't waited for; others are over before the call returns. */
NTSTATUS FltPerformAsynchronousIo(PFLT_CALLBACK_DATA CallbackData, PFLT_COMPLETED_ASYNC_IO_CALLBACK CallbackRoutine, PVOID CallbackContext)
{
    KZ_CALL();
    PFLT_IO_PARAMETER_BLOCK iopb = CallbackData->Iopb;
    if (!made_of(CallbackData, __func__))
        return STATUS_INVALID_PARAMETER;
    if (iopb->MajorFunction == IRP_MJ_READ || iopb->MajorFunction == IRP_MJ_WRITE) {
        KzTransfer one = transfer_of(iopb->TargetInstance, iopb, NULL, __func__);
        one.routine = CallbackRoutine;
        one.context = CallbackContext;
        one.data = CallbackData;
        return kz_transfer(&one, iopb->MajorFunction == IRP_MJ_WRITE);
    }
    if (iopb->MajorFunction == IRP_MJ_FILE_SYSTEM_CONTROL)
        return kz_control_later(CallbackData, CallbackRoutine, CallbackContext, __func__);
    FltPerformSynchronousIo(CallbackData);
    unsigned depth = kz_let_driver("completion", CallbackRoutine);
    KZ_CALL_DRIVER(CallbackRoutine, CallbackData, CallbackContext);
    kz_driver_returned(depth, "completion returns");
    return STATUS_PENDING;
}

/* A create that failed is sent down again, with the same file object: if it comes to something, that is open for who asked first. */
static NTSTATUS open_again(PFLT_INSTANCE instance, KzOp *op, PULONG done)
{
    const char *path = kz_name_now(op->file);
    *done = 0;
    if (op->lent.status == KZS_OK || op->is_reopened || kz_me->place.callback != KZ_IN_POST || !kz_take_create(op)) {
        kz_tell(KZM_OWN_IO, "FltReissueSynchronousIo", "a create is sent down again in its postoperation alone, and if it failed: it answers STATUS_NOT_SUPPORTED");
        return STATUS_NOT_SUPPORTED;
    }
    const KzOwn own = {.initiator = instance, .is_waited_for = true, .ecps = op->ecps, .create = &op->create};
    KazdrinEvent event = {.event = KZE_CREATE, .volume = op->volume->id, .mode = kz_mode_of(op->create.options >> 24)};
    NTSTATUS status = kz_status_of(kz_below(&own, op->file, event, path, strlen(path)));
    op->is_reopened = NT_SUCCESS(status) && status != STATUS_REPARSE;
    op->other = op->is_reopened ? STATUS_SUCCESS : status;
    *done = op->is_reopened ? (ULONG)op->file->created : 0;
    return status;
}

VOID FltReissueSynchronousIo(PFLT_INSTANCE InitiatingInstance, PFLT_CALLBACK_DATA CallbackData)
{
    KZ_CALL();
    ULONG done;
    KzOp *op = kz_op_with(CallbackData);
    if (!op) {
        kz_tell(KZM_NOT_OWN_DATA, __func__, "callback data of no operation");
        return;
    }
    kz_me->reissues.instance = InitiatingInstance;
    kz_me->reissues.is_user = kz_requestor_of(op) == UserMode;
    bool is_create = op->event == KZE_CREATE && !op->opaque;
    CallbackData->IoStatus.Status = is_create ? open_again(InitiatingInstance, op, &done) : carry_out(InitiatingInstance, CallbackData->Iopb, &done, __func__);
    kz_me->reissues.instance = NULL;
    CallbackData->IoStatus.Information = done;
    if (is_create) {
        CallbackData->TagData = NULL;
        op->shown.status = CallbackData->IoStatus; /* those above see it */
    }
    op->shown.parameters = *op->iopb; /* what it changed there has counted */
}
