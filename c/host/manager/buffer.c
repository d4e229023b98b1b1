/* The buffers that an operation's answer comes into: those that each instance on the way down received, and those that it put in their place. */
#include "manager/buffer.h"

#include "core/memory.h"
#include "core/op.h"
#include "core/piece.h"
#include "core/told.h"
#include "manager/block.h"


PVOID *kz_buffer_in(KzOp *op, FLT_PARAMETERS *parameters, PMDL **mdl, ULONG **length)
{
    switch (op->event) {
    case KZE_READ:
        *mdl = &parameters->Read.MdlAddress;
        *length = &parameters->Read.Length;
        return &parameters->Read.ReadBuffer;
    case KZE_LIST:
        *mdl = &parameters->DirectoryControl.QueryDirectory.MdlAddress;
        *length = &parameters->DirectoryControl.QueryDirectory.Length;
        return &parameters->DirectoryControl.QueryDirectory.DirectoryBuffer;
    case KZE_QUERY_SIZE:
        *mdl = &op->no_mdl;
        op->no_mdl = NULL;
        *length = &parameters->QueryFileInformation.Length;
        return &parameters->QueryFileInformation.InfoBuffer;
    default:
        return NULL;
    }
}

bool kz_has_buffer(const KzOp *op)
{
    return op->event == KZE_READ || op->event == KZE_LIST || op->event == KZE_QUERY_SIZE;
}

/* What each instance on the way down received is kept, for its postoperation. */
bool kz_has_visits(const KzOp *op)
{
    return kz_has_buffer(op) || op->event == KZE_CREATE;
}

static bool is_paging(const KzOp *op)
{
    return op->own.irp_flags & IRP_PAGING_IO;
}

/* The memory manager asks by a description of its pages; what others ask has one where a filter makes it. */
PMDL kz_description_of(KzOp *op, PVOID buffer, size_t length)
{
    PMDL made = is_paging(op) && buffer && length ? IoAllocateMdl(buffer, (ULONG)length, FALSE, FALSE, NULL) : NULL;
    if (!made)
        return NULL;
    MmBuildMdlForNonPagedPool(made);
    kz_piece_of(made)->filter = NULL; /* nobody's but the manager's */
    kz_keep_mdl(op, made);
    return made;
}

void kz_visit(KzOp *op, PFLT_INSTANCE instance)
{
    KzVisit *above = op->visits, *made = kz_memory(sizeof *made);
    *made = (KzVisit){.above = above, .instance = instance, .received = op->caller, .room = op->caller_room, .create = op->create};
    if (!above)
        made->received_mdl = kz_description_of(op, op->caller, op->caller_room);
    if (above) {
        made->received = above->swapped ? above->swapped : above->received;
        made->room = above->swapped ? above->swapped_room : above->room;
        made->received_mdl = above->swapped ? (op->mdls && op->mdls->mdl && MmGetMdlVirtualAddress(op->mdls->mdl) == above->swapped ? op->mdls->mdl : NULL)
                                            : above->received_mdl;
    }
    op->visits = made;
}

void kz_leave_visit(KzOp *op)
{
    KzVisit *visited = op->visits;
    op->visits = visited->above;
    free(visited);
}

/* An instance that is drained frees its buffer: those below go on with one of the operation's own. */
void kz_forget_swap(KzOp *op, PFLT_INSTANCE instance)
{
    if (op->opaque)
        return; /* that was before the drain */
    for (KzVisit *below = NULL, *at = op->visits; at; below = at, at = at->above) {
        if (at->instance != instance || !at->swapped)
            continue;
        PVOID gone = at->swapped;
        at->swapped = kz_block(op, at->swapped_room);
        if (below)
            for (KzVisit *lower = op->visits; lower != at; lower = lower->above)
                if (lower->received == gone) {
                    lower->received = at->swapped;
                    lower->received_mdl = NULL;
                }
        for (KzMdl *one = op->mdls; one; one = one->next)
            if (one->mdl && MmGetMdlVirtualAddress(one->mdl) == gone) {
                IoFreeMdl(one->mdl);
                one->mdl = NULL;
            }
        PMDL *mdl;
        ULONG *length;
        PVOID *buffer = kz_buffer_in(op, &op->iopb->Parameters, &mdl, &length);
        if (buffer && *buffer == gone) {
            *buffer = at->swapped;
            *mdl = NULL;
            op->shown.parameters = *op->iopb;
        }
    }
}

void kz_keep_mdl(KzOp *op, PMDL mdl)
{
    for (KzMdl *one = op->mdls; one; one = one->next)
        if (one->mdl == mdl)
            return;
    KzMdl *kept = kz_block(op, sizeof *kept);
    *kept = (KzMdl){op->mdls, mdl};
    op->mdls = kept;
}

/* Who has an MDL goes by that, and not by the buffer. */
void kz_tell_old_mdl(PMDL mdl)
{
    if (mdl)
        kz_tell(KZM_NO_SWAP_BUFFER, "MdlAddress", "it describes the buffer that was there before: whoever goes by it doesn't see the driver's own");
}

void kz_note_swap(KzOp *op, bool has_post)
{
    KzVisit *visited = op->visits;
    PMDL *mdl = NULL, *mdl_shown;
    ULONG *length = NULL, *length_shown;
    PVOID *buffer = kz_buffer_in(op, &op->iopb->Parameters, &mdl, &length);
    PVOID *buffer_shown = kz_buffer_in(op, &op->shown.parameters.Parameters, &mdl_shown, &length_shown);
    if (op->event != KZE_QUERY_SIZE && *mdl && *mdl != visited->received_mdl) {
        kz_keep_mdl(op, *mdl);
        visited->swapped = MmGetMdlVirtualAddress(*mdl);
    } else if (*buffer != *buffer_shown) {
        kz_tell_old_mdl(*mdl);
        visited->swapped = *buffer;
    }
    visited->swapped_room = *length;
    if (visited->swapped && !has_post)
        kz_tell(KZM_LOST_SWAP, "FltSetCallbackDataDirty", "a buffer was swapped and no postoperation is asked for: what comes into it never comes to the caller's");
}
