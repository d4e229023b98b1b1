/* Callback data: what the manager lends is shown in the kit's structures, and what a callback left in them is put back. */
#include "manager/data.h"

#include "core/access.h"
#include "core/client.h"
#include "core/major.h"
#include "core/pool.h"
#include "core/state.h"
#include "core/told.h"
#include "filesystem/fileobject.h"
#include "filesystem/name.h"
#include "manager/below.h"
#include "manager/block.h"
#include "manager/buffer.h"
#include "manager/opaque.h"
#include "manager/disposition.h"
#include "manager/instance.h"


/* A program's buffer of a read, a write or a listing isn't copied by the system: it is memory of that process. */
static bool is_callers_own(const KzOp *op)
{
    return (op->event == KZE_READ || op->event == KZE_WRITE || op->event == KZE_LIST) && kz_requestor_of(op) == UserMode;
}

static void own(KzOp *op, PVOID buffer)
{
    if (is_callers_own(op))
        kz_own(buffer, KZ_CALLERS, op->process);
}

void kz_free_data(KzOp *op)
{
    while (op->visits)
        kz_leave_visit(op);
    for (; op->mdls; op->mdls = op->mdls->next)
        if (op->mdls->mdl)
            kz_free_pool(op->mdls->mdl, "IoFreeMdl");
    kz_give_back(op->iopb);
    kz_give_back(op->data);
    while (op->blocks) {
        KzBlock *block = op->blocks;
        op->blocks = block->next;
        kz_give_back(block->bytes);
        free(block);
    }
}

/* ---- What is asked for. */
static void show_information(KzOp *op, FLT_PARAMETERS *shown)
{
    FILE_END_OF_FILE_INFORMATION end = {.EndOfFile.QuadPart = (LONGLONG)op->lent.offset};
    op->shown.asked = memcpy(kz_input_block(op, sizeof end), &end, sizeof end);
    op->shown.asked_length = sizeof end;
    shown->SetFileInformation.FileInformationClass = FileEndOfFileInformation;
    shown->SetFileInformation.Length = (ULONG)op->shown.asked_length;
    shown->SetFileInformation.InfoBuffer = op->shown.asked;
}

static void show_buffer(KzOp *op, FLT_PARAMETERS *shown)
{
    PMDL *mdl;
    ULONG *length;
    PVOID *buffer = kz_buffer_in(op, shown, &mdl, &length);
    *buffer = op->visits->received;
    if (op->visits->received == op->caller)
        own(op, op->caller);
    *mdl = op->visits->received_mdl;
}

static void show_parameters(KzOp *op, FLT_PARAMETERS *shown)
{
    switch (op->event) {
    case KZE_CREATE:
        kz_show_create(op, shown);
        break;
    case KZE_READ:
        shown->Read.Length = op->lent.len;
        shown->Read.ByteOffset.QuadPart = (LONGLONG)op->lent.offset;
        show_buffer(op, shown);
        break;
    case KZE_WRITE:
        op->shown.asked = memcpy(kz_caller_block(op, op->lent.length), kz_me->room, op->lent.length);
        op->shown.asked_length = op->lent.length;
        own(op, op->shown.asked);
        shown->Write.Length = (ULONG)op->shown.asked_length;
        shown->Write.ByteOffset.QuadPart = kz_shown_offset(op->lent.offset);
        shown->Write.WriteBuffer = op->shown.asked;
        shown->Write.MdlAddress = kz_description_of(op, op->shown.asked, op->shown.asked_length);
        break;
    case KZE_QUERY_SIZE:
        shown->QueryFileInformation.Length = sizeof(FILE_STANDARD_INFORMATION);
        shown->QueryFileInformation.FileInformationClass = FileStandardInformation;
        show_buffer(op, shown);
        break;
    case KZE_SET_SIZE:
        show_information(op, shown);
        break;
    case KZE_LIST:
        shown->DirectoryControl.QueryDirectory.FileInformationClass = FileNamesInformation;
        shown->DirectoryControl.QueryDirectory.Length = op->visits->room;
        show_buffer(op, shown);
        break;
    }
}

static ULONG irp_flags_of(uint8_t event)
{
    switch (event) {
    case KZE_CREATE:
        return IRP_CREATE_OPERATION | IRP_SYNCHRONOUS_API | IRP_DEFER_IO_COMPLETION;
    case KZE_READ:
        return IRP_READ_OPERATION | IRP_DEFER_IO_COMPLETION;
    case KZE_WRITE:
        return IRP_WRITE_OPERATION | IRP_DEFER_IO_COMPLETION;
    case KZE_CLOSE:
    case KZE_CLEANUP:
        return IRP_CLOSE_OPERATION | IRP_SYNCHRONOUS_API;
    case KZE_QUERY_SIZE:
    case KZE_SET_SIZE:
        return IRP_BUFFERED_IO | IRP_SYNCHRONOUS_API;
    default:
        return IRP_SYNCHRONOUS_API;
    }
}

/* Fills the kit's structures from what the worker was lent. */
void kz_show_data(KzOp *op, PFLT_INSTANCE instance)
{
    kazdrin_lent(&kz.manager, &(KazdrinEvent){.worker = kz_worker()}, &op->lent, kz_me->room, sizeof kz_me->room);
    memset(op->iopb, 0, sizeof *op->iopb);
    op->iopb->IrpFlags = op->own.is_fast ? 0 : irp_flags_of(op->event) | op->own.irp_flags;
    op->iopb->MajorFunction = kz_major_of(op);
    op->iopb->MinorFunction = op->event == KZE_LIST ? IRP_MN_QUERY_DIRECTORY : IRP_MN_NORMAL;
    op->iopb->OperationFlags = op->event == KZE_LIST ? SL_RESTART_SCAN : op->create.is_target ? SL_OPEN_TARGET_DIRECTORY | SL_FORCE_ACCESS_CHECK : 0;
    op->iopb->TargetFileObject = &op->file->object;
    op->iopb->TargetInstance = instance;
    op->shown.asked = NULL;
    op->shown.asked_length = 0;
    show_parameters(op, &op->iopb->Parameters);
    op->shown.pristine = op->shown.asked ? kz_block_of(op, op->shown.asked, op->shown.asked_length) : NULL;
    op->shown.parameters = *op->iopb;
    op->data->Flags = kz_data_flags(op);
    op->data->RequestorMode = kz_requestor_of(op);
    if (irp_flags_of(op->event) & IRP_BUFFERED_IO)
        op->data->Flags |= FLTFL_CALLBACK_DATA_SYSTEM_BUFFER;
}

void kz_show_pre(KzOp *op, PFLT_INSTANCE instance)
{
    if (op->opaque) {
        kz_show_opaque(op, instance, false);
        return;
    }
    if (kz_has_visits(op))
        kz_visit(op, instance);
    kz_show_data(op, instance);
    op->data->IoStatus = op->shown.status = (IO_STATUS_BLOCK){.Status = STATUS_SUCCESS};
}

/* ---- What a preoperation left. */
static const uint8_t *written(KzOp *op)
{
    PMDL mdl = op->iopb->Parameters.Write.MdlAddress;
    if (!mdl)
        return op->iopb->Parameters.Write.WriteBuffer;
    if (mdl == op->shown.parameters.Parameters.Write.MdlAddress && op->iopb->Parameters.Write.WriteBuffer != op->shown.parameters.Parameters.Write.WriteBuffer)
        kz_tell_old_mdl(mdl);
    kz_keep_mdl(op, mdl);
    return MmGetMdlVirtualAddress(mdl);
}

/* The parameters that the callback left, as the manager's event; false for what it hasn't. */
static bool changed(KzOp *op, KazdrinEvent *event, const uint8_t **bytes, size_t *length)
{
    const FLT_PARAMETERS *now = &op->iopb->Parameters;
    *event = (KazdrinEvent){.event = op->event, .worker = kz_worker()};
    switch (op->event) {
    case KZE_CREATE:
        *bytes = (const uint8_t *)kz_key_of(op->file);
        *length = strlen(kz_key_of(op->file));
        event->mode = kz_mode_of(now->Create.Options >> 24);
        return kz_take_create(op);
    case KZE_READ:
        event->offset = (uint64_t)now->Read.ByteOffset.QuadPart;
        event->len = now->Read.Length;
        return true;
    case KZE_WRITE:
        *bytes = written(op);
        *length = kz_there(*bytes, now->Write.Length, "WriteBuffer");
        event->offset = kz_offset_of(now->Write.ByteOffset.QuadPart);
        return true;
    case KZE_SET_SIZE:
        event->offset = (uint64_t)((PFILE_END_OF_FILE_INFORMATION)now->SetFileInformation.InfoBuffer)->EndOfFile.QuadPart;
        return now->SetFileInformation.FileInformationClass == FileEndOfFileInformation;
    default:
        return true;
    }
}

/* What its own program has changed isn't the driver's doing. */
static bool is_in_place(KzOp *op)
{
    if (!op->shown.asked || memcmp(op->shown.asked, op->shown.pristine, op->shown.asked_length) == 0)
        return false;
    const KzPiece *piece = kz_piece_of(op->shown.asked);
    return !piece || !piece->has_changed;
}

/* Whether the parameters differ from those that the callback was shown, or from those that it left. */
bool kz_is_touched(KzOp *op)
{
    return memcmp(op->iopb, &op->shown.parameters, sizeof *op->iopb) != 0 || is_in_place(op);
}

/* The target may be another instance of the filter, or another file: the manager sends it nowhere else. */
void kz_check_target(KzOp *op, bool is_dirty)
{
    bool is_same = op->iopb->TargetInstance == op->shown.parameters.TargetInstance && op->iopb->TargetFileObject == op->shown.parameters.TargetFileObject;
    if (is_same)
        return;
    if (!kz_is_instance(op->iopb->TargetInstance) || !kz_file_with(op->iopb->TargetFileObject))
        kz_tell(KZM_NO_TARGET, "FLT_IO_PARAMETER_BLOCK", "TargetInstance or TargetFileObject was changed to what is none");
    else if (is_dirty)
        kz_tell(KZM_REDIRECTED, "FLT_IO_PARAMETER_BLOCK", "an operation goes to no other instance or file: TargetInstance and TargetFileObject stay");
    op->iopb->TargetInstance = op->shown.parameters.TargetInstance;
    op->iopb->TargetFileObject = op->shown.parameters.TargetFileObject;
}

/* Bytes that were changed in the caller's own buffer are written, as in the kit. */
static void take_in_place(KzOp *op, KzPut *put)
{
    kz_tell(KZM_WRITE_IN_PLACE, "FLT_IO_PARAMETER_BLOCK", "the bytes of WriteBuffer were changed in place: that is the caller's own memory");
    KazdrinEvent event = {.event = KZE_WRITE, .worker = kz_worker(), .offset = op->lent.offset};
    put(op, event, op->shown.asked, op->shown.asked_length);
    memcpy(op->shown.pristine, op->shown.asked, op->shown.asked_length);
}

/* The change is made by `put`, whether the callback still runs or holds the operation. */
static void take_parameters(KzOp *op, bool has_post, bool is_completed, KzPut *put)
{
    const uint8_t *bytes = (const uint8_t *)"";
    size_t length = 0;
    KazdrinEvent event;
    bool is_dirty = op->data->Flags & FLTFL_CALLBACK_DATA_DIRTY;
    kz_check_target(op, is_dirty);
    if (op->opaque) {
        kz_take_opaque_pre(op, has_post, is_completed, put);
        return;
    }
    if (op->event == KZE_WRITE && is_in_place(op) && !is_completed)
        take_in_place(op, put);
    if (!is_dirty) {
        if (kz_is_touched(op) && !is_completed)
            kz_tell(KZM_NOT_DIRTY, "FltSetCallbackDataDirty", "never called, though parameters were changed: they don't count");
        *op->iopb = op->shown.parameters;
        return;
    }
    if (kz_has_buffer(op))
        kz_note_swap(op, has_post);
    if (!changed(op, &event, &bytes, &length) || put(op, event, bytes, length) != KZS_OK)
        kz_tell(KZM_OTHER_PARAMETERS, "FltSetCallbackDataDirty", "parameters of another operation, or past a limit of the manager: they don't count");
    op->shown.parameters = *op->iopb;
    if (op->shown.asked)
        memcpy(op->shown.pristine, op->shown.asked, op->shown.asked_length);
}

static uint32_t put_now(KzOp *op, KazdrinEvent event, const uint8_t *bytes, size_t length)
{
    (void)op;
    return kazdrin_change(&kz.manager, &event, bytes, length);
}

void kz_take_pre(KzOp *op, bool has_post, bool is_completed)
{
    if (!is_completed && (op->data->IoStatus.Status != op->shown.status.Status || op->data->IoStatus.Information != op->shown.status.Information))
        kz_tell(KZM_STATUS_NOT_COMPLETED, "FLT_CALLBACK_DATA", "IoStatus was set by a preoperation that doesn't complete: it doesn't count");
    take_parameters(op, has_post, is_completed, put_now);
}

void kz_take_held_pre(KzOp *op, bool has_post, KzPut *put)
{
    take_parameters(op, has_post, false, put);
}
