/* Operations of major functions that the manager doesn't look into: their parameters, as callbacks see and change them, and their answers. */
#include "manager/opaque.h"

#include "cache/cache.h"
#include "core/client.h"
#include "core/memory.h"
#include "core/piece.h"
#include "core/state.h"
#include "core/status.h"
#include "core/told.h"
#include "core/unwritten.h"
#include "filesystem/control.h"
#include "filesystem/entries.h"
#include "filesystem/oplocks.h"
#include "filesystem/rename.h"
#include "filesystem/set.h"
#include "filesystem/volumes.h"
#include "manager/below.h"
#include "manager/block.h"
#include "manager/buffer.h"
#include "manager/data.h"
#include "manager/fill.h"


void kz_begin_opaque(KzOp *op, const KzAsked *asked)
{
    op->opaque = kz_memory(sizeof *op->opaque);
    *op->opaque = (KzOpaque){.major = asked->major,
                               .minor = asked->minor,
                               .operation_flags = asked->flags,
                               .irp_flags = IRP_SYNCHRONOUS_API | asked->irp_flags,
                               .data_flags = asked->data_flags ? asked->data_flags : FLTFL_CALLBACK_DATA_IRP_OPERATION,
                               .has_no_file = asked->has_no_file,
                               .input_size = asked->input_size,
                               .is_programs = kz_requestor_of(op) == UserMode && kz_is_uncopied(asked)};
    if (op->opaque->irp_flags & IRP_BUFFERED_IO)
        op->opaque->data_flags |= FLTFL_CALLBACK_DATA_SYSTEM_BUFFER;
    kz_fill_opaque(op, asked);
    op->opaque->first = op->opaque->now;
}

KazdrinEvent kz_opaque_event(const KzAsked *asked, KazdrinEvent on)
{
    on.mode = asked->major;
    return on;
}

void kz_free_opaque(KzOp *op)
{
    while (op->opaque && op->opaque->changed) {
        KzChanged *gone = op->opaque->changed;
        op->opaque->changed = gone->before;
        free(gone);
    }
    free(op->opaque);
    op->opaque = NULL;
}

/* Those that the manager says are seen there. */
static const FLT_PARAMETERS *parameters_of(const KzOpaque *opaque, uint64_t number)
{
    const KzChanged *left = opaque->changed;
    while (left && left->number != number)
        left = left->before;
    return left ? &left->parameters : &opaque->first;
}

/* ---- What a callback is shown. */
static void fill(KzOp *op, PFLT_INSTANCE instance)
{
    const KzOpaque *opaque = op->opaque;
    kazdrin_lent(&kz.manager, &(KazdrinEvent){.flag = 1, .worker = kz_worker()}, &op->lent, kz_me->room, sizeof kz_me->room);
    memset(op->iopb, 0, sizeof *op->iopb);
    *op->iopb = (FLT_IO_PARAMETER_BLOCK){.IrpFlags = opaque->irp_flags,
                                         .MajorFunction = opaque->major,
                                         .MinorFunction = opaque->minor,
                                         .OperationFlags = opaque->operation_flags,
                                         .TargetFileObject = opaque->has_no_file ? NULL : &op->file->object,
                                         .TargetInstance = instance,
                                         .Parameters = *parameters_of(opaque, op->lent.offset)};
    op->shown.asked = NULL;
    op->shown.asked_length = 0;
    op->shown.parameters = *op->iopb;
    op->data->Flags = (kz_data_flags(op) & ~(ULONG)FLTFL_CALLBACK_DATA_IRP_OPERATION) | opaque->data_flags;
    op->data->RequestorMode = kz_requestor_of(op);
}

void kz_show_opaque(KzOp *op, PFLT_INSTANCE instance, bool is_post)
{
    KzOpaque *opaque = op->opaque;
    fill(op, instance);
    op->data->IoStatus = (IO_STATUS_BLOCK){.Status = STATUS_SUCCESS};
    if (is_post) {
        op->data->Flags |= FLTFL_CALLBACK_DATA_POST_OPERATION;
        op->data->IoStatus = (IO_STATUS_BLOCK){.Status = op->other ? op->other : kz_ntstatus(op->lent.status), .Information = opaque->information};
    }
    op->shown.status = op->data->IoStatus;
}

/* ---- What it left. Its buffer, if its operation has one. */
static PVOID *buffer_in(PFLT_IO_PARAMETER_BLOCK block, ULONG **length)
{
    FLT_CALLBACK_DATA data = {.Iopb = block};
    PVOID *buffer = NULL;
    PMDL *mdl;
    return NT_SUCCESS(FltDecodeParameters(&data, &mdl, &buffer, length, NULL)) ? buffer : NULL;
}

/* The description of the buffer, if there is one. */
static PMDL description_in(PFLT_IO_PARAMETER_BLOCK block)
{
    FLT_CALLBACK_DATA data = {.Iopb = block};
    PMDL *mdl = NULL;
    PVOID *buffer;
    ULONG *length;
    return NT_SUCCESS(FltDecodeParameters(&data, &mdl, &buffer, &length, NULL)) && mdl ? *mdl : NULL;
}

/* The manager frees one that a filter put in place of what it received. */
static void keep_description(KzOp *op)
{
    PMDL now = description_in(op->iopb);
    if (now && now != description_in(&op->shown.parameters))
        kz_keep_mdl(op, now);
}

static void check_swap(KzOp *op, bool has_post)
{
    ULONG *length;
    PVOID *now = buffer_in(op->iopb, &length), *before = buffer_in(&op->shown.parameters, &length);
    if (op->opaque->output && !has_post && now && before && *now != *before)
        kz_tell(KZM_LOST_SWAP, "FltSetCallbackDataDirty", "a buffer was swapped and no postoperation is asked for: what comes into it never comes to the caller's");
}

/* The folder of a rename was opened, with the name in its file object: another one in the buffer leads nowhere. */
static void check_target(KzOp *op)
{
    const FILE_RENAME_INFORMATION *said = op->iopb->Parameters.SetFileInformation.InfoBuffer;
    char now[KZ_WHOLE_PATH], opened[KZ_WHOLE_PATH];
    if (!op->opaque->target || op->opaque->is_misled || !kz_name_in_target(op->opaque->target, opened, sizeof opened))
        return;
    bool is_same = kz_destination(op->file, said->RootDirectory, said->FileName, said->FileNameLength, now, sizeof now) && strcmp(now, opened) == 0;
    op->opaque->is_misled = !is_same;
    if (!is_same)
        kz_tell(KZM_OTHER_TARGET, "FltSetCallbackDataDirty", "another name in a rename whose folder was opened: the name of ParentOfTarget counts");
}

/* Those below see what the callback left, by the next number. */
static void keep_changed(KzOp *op, KzPut *put)
{
    KzOpaque *opaque = op->opaque;
    KzChanged *left = kz_memory(sizeof *left);
    *left = (KzChanged){opaque->changed, opaque->changed ? opaque->changed->number + 1 : 1, op->iopb->TargetInstance, op->iopb->Parameters};
    opaque->changed = left;
    put(op, (KazdrinEvent){.event = KZE_OTHER, .worker = kz_worker(), .mode = opaque->major, .offset = left->number}, (const uint8_t *)"", 0);
}

void kz_take_opaque_pre(KzOp *op, bool has_post, bool is_completed, KzPut *put)
{
    KzOpaque *opaque = op->opaque;
    if (!(op->data->Flags & FLTFL_CALLBACK_DATA_DIRTY)) {
        if (kz_is_touched(op) && !is_completed)
            kz_tell(KZM_NOT_DIRTY, "FltSetCallbackDataDirty", "never called, though parameters were changed: they don't count");
        *op->iopb = op->shown.parameters;
        return;
    }
    if (op->iopb->MajorFunction != opaque->major || op->iopb->MinorFunction != opaque->minor) {
        kz_tell(KZM_OTHER_PARAMETERS, "FltSetCallbackDataDirty", "parameters of another operation: they don't count");
        *op->iopb = op->shown.parameters;
        return;
    }
    check_swap(op, has_post);
    check_target(op);
    keep_description(op);
    keep_changed(op, put);
    opaque->operation_flags = op->iopb->OperationFlags;
    op->shown.parameters = *op->iopb;
}

/* How much its buffer holds, as the callback was shown it; without one there is no limit. */
static uint64_t most_of(KzOp *op)
{
    ULONG *length = NULL;
    return op->opaque->output && buffer_in(&op->shown.parameters, &length) && length ? *length : UINT64_MAX;
}

static void keep_information(KzOp *op, const char *call)
{
    uint64_t said = op->data->IoStatus.Information, most = most_of(op);
    bool has_room = op->opaque->major != IRP_MJ_QUERY_SECURITY; /* there it may be how much is needed */
    if (has_room && said > most)
        kz_tell(KZM_PAST_LENGTH, call, "IoStatus.Information %llu is past the %llu bytes that were asked for", (unsigned long long)said, (unsigned long long)most);
    op->opaque->information = said;
}

void kz_serve_opaque(KzOp *op)
{
    keep_information(op, "FLT_PREOP_COMPLETE");
}

/* The status is the manager's; the number beside it, and the bytes, are here. */
void kz_take_opaque_post(KzOp *op)
{
    bool is_exact;
    IO_STATUS_BLOCK said = op->data->IoStatus;
    if (kz_is_touched(op) && op->data->Flags & FLTFL_CALLBACK_DATA_DIRTY)
        kz_tell(KZM_DIRTY_POST, "FltSetCallbackDataDirty", "parameters that a postoperation changes don't count");
    if (said.Status == STATUS_PENDING) {
        kz_tell(KZM_COMPLETED_PENDING, "FLT_CALLBACK_DATA", "IoStatus.Status is STATUS_PENDING: it doesn't count");
        return;
    }
    keep_information(op, "FLT_CALLBACK_DATA");
    if (said.Status == op->shown.status.Status)
        return;
    uint32_t number = kz_number(said.Status, &is_exact);
    op->other = is_exact ? STATUS_SUCCESS : said.Status;
    KazdrinEvent put = {.worker = kz_worker(), .status = (uint8_t)number, .number = op->lent.number, .offset = op->lent.information};
    if (op->stage == KZ_HELD_BY_POST)
        op->served = (KzServed){.is_there = true, .has_status = true, .status = (uint8_t)number};
    else if (kazdrin_answer(&kz.manager, &put, (const uint8_t *)"", 0) != KZS_OK)
        kz_tell(KZM_LONG_ANSWER, "FLT_CALLBACK_DATA", "an answer past a limit of the manager: it doesn't count");
}

/* ---- A drain. */
static void replace(FLT_PARAMETERS *parameters, KzOp *op, PVOID gone, PVOID fresh)
{
    ULONG *length;
    FLT_IO_PARAMETER_BLOCK block = {.MajorFunction = op->opaque->major, .MinorFunction = op->opaque->minor, .Parameters = *parameters};
    PVOID *buffer = buffer_in(&block, &length);
    if (!buffer || *buffer != gone)
        return;
    *buffer = fresh;
    *parameters = block.Parameters;
}

static PVOID buffer_of(const KzOp *op, const FLT_PARAMETERS *parameters, ULONG *length)
{
    ULONG *size = NULL;
    FLT_IO_PARAMETER_BLOCK block = {.MajorFunction = op->opaque->major, .MinorFunction = op->opaque->minor, .Parameters = *parameters};
    PVOID *buffer = buffer_in(&block, &size);
    *length = size ? *size : 0;
    return buffer ? *buffer : NULL;
}

void kz_forget_opaque_swap(KzOp *op, PFLT_INSTANCE instance)
{
    KzChanged *own = op->opaque->changed;
    while (own && own->by != instance)
        own = own->before;
    ULONG length, received_length;
    PVOID gone = own ? buffer_of(op, &own->parameters, &length) : NULL;
    if (!gone || gone == buffer_of(op, own->before ? &own->before->parameters : &op->opaque->first, &received_length))
        return;
    PVOID fresh = memcpy(kz_block(op, length), gone, kz_there(gone, length, "swapped buffer"));
    for (KzChanged *lower = op->opaque->changed; lower != own->before; lower = lower->before)
        replace(&lower->parameters, op, gone, fresh);
    replace(&op->opaque->now, op, gone, fresh);
    replace(&op->iopb->Parameters, op, gone, fresh);
    op->shown.parameters = *op->iopb;
}

/* ---- The file system's answer. What lies between its entries isn't the driver's: it is zeros where a run looks for what nobody wrote. */
static void write_room(const KzOp *op)
{
    bool is_query = op->opaque->output && (op->opaque->major == IRP_MJ_QUERY_INFORMATION || op->opaque->major == IRP_MJ_DIRECTORY_CONTROL);
    ULONG length = 0;
    PVOID room = kz_is_filled() && is_query ? buffer_of(op, &op->opaque->now, &length) : NULL;
    const KzPiece *piece = room ? kz_piece_of(room) : NULL;
    if (piece && piece->size >= length)
        memset(room, 0, length);
}

NTSTATUS kz_answer_opaque(KzOp *op)
{
    uint8_t none;
    KazdrinData call = {0};
    kazdrin_lent(&kz.manager, &(KazdrinEvent){.worker = kz_worker()}, &call, &none, 0);
    op->opaque->now = *parameters_of(op->opaque, call.offset);
    op->opaque->information = 0;
    write_room(op);
    if (!kz_is_for_cache(op) && kz_meets_oplock(op))
        return STATUS_PENDING;
    switch (op->opaque->major) {
    case IRP_MJ_QUERY_INFORMATION:
        return kz_answer_query(op, &op->opaque->now);
    case IRP_MJ_SET_INFORMATION:
        return kz_answer_set(op, &op->opaque->now);
    case IRP_MJ_DIRECTORY_CONTROL:
        return kz_answer_directory(op, &op->opaque->now);
    case IRP_MJ_QUERY_VOLUME_INFORMATION:
    case IRP_MJ_SET_VOLUME_INFORMATION:
        return kz_answer_volume(op, &op->opaque->now);
    default:
        return kz_answer_other(op, &op->opaque->now);
    }
}
