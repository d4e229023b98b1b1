/* Memory of an operation: blocks that live as long as it does, and its callback data. */
#include "manager/block.h"

#include "core/memory.h"
#include "core/op.h"
#include "core/piece.h"
#include "core/unwritten.h"

#include <stdlib.h>

/* Memory that lives as long as its operation, between red zones. */
static void *take(KzOp *op, KzMemory kind, size_t size, int fill)
{
    KzBlock *block = kz_memory(sizeof *block);
    *block = (KzBlock){op->blocks, kz_take_memory(kind, size, fill, 0)};
    op->blocks = block;
    if (!block->bytes) {
        fprintf(stderr, "no memory\n");
        exit(1);
    }
    return block->bytes;
}

void *kz_block(KzOp *op, size_t size)
{
    return take(op, KZK_BUFFER, size, 0);
}

void *kz_output_block(KzOp *op, size_t size)
{
    return take(op, KZK_BUFFER, size, kz_unwritten_room());
}

void *kz_caller_block(KzOp *op, size_t size)
{
    return take(op, KZK_CALLER, size, kz_unwritten_room());
}

void *kz_input_block(KzOp *op, size_t size)
{
    return take(op, KZK_INPUT, size, kz_unwritten(0));
}

FLT_CALLBACK_DATA *kz_new_data(PETHREAD thread, PFLT_IO_PARAMETER_BLOCK iopb)
{
    FLT_CALLBACK_DATA fresh = {.Flags = FLTFL_CALLBACK_DATA_IRP_OPERATION, .Thread = thread, .Iopb = iopb, .RequestorMode = UserMode};
    FLT_CALLBACK_DATA *made = kz_take_memory(KZK_DATA, sizeof fresh, 0, 0);
    memcpy(made, &fresh, sizeof fresh);
    return made;
}

/* A filter completed what it held: its structures aren't its any more. They are filled, and the operation goes on with others. */
void kz_renew_data(KzOp *op)
{
    PFLT_IO_PARAMETER_BLOCK iopb = kz_take_memory(KZK_DATA, sizeof *iopb, 0, 0);
    *iopb = *op->iopb;
    FLT_CALLBACK_DATA *data = kz_new_data(op->thread, iopb);
    data->Flags = op->data->Flags;
    data->IoStatus = op->data->IoStatus;
    kz_piece_of(op->data)->filter = kz_piece_of(op->iopb)->filter = op->holder->filter;
    kz_give_back(op->iopb);
    kz_give_back(op->data);
    op->iopb = iopb;
    op->data = data;
}

void *kz_block_of(KzOp *op, const void *bytes, size_t length)
{
    void *copy = kz_block(op, length);
    memcpy(copy, bytes, length);
    return copy;
}
