/* What goes along with an IRP: from where on the file system is to clear what a write leaves out, and where its buffer has come to. */
#include "core/client.h"
#include "core/op.h"
#include "manager/operation.h"

NTSTATUS FltSetFsZeroingOffset(PFLT_CALLBACK_DATA Data, ULONG ZeroingOffset)
{
    KZ_INSIDE_ALONE();
    KzOp *op = kz_op_with(Data);
    kz_scheduler->uses(op, KZU_WRITES);
    if (!op)
        return STATUS_INVALID_PARAMETER;
    op->zeroing.is_set = true;
    op->zeroing.from = ZeroingOffset;
    return STATUS_SUCCESS;
}

/* Nobody here needs one: whoever asks for it is left with what filters below it set. */
NTSTATUS FltSetFsZeroingOffsetRequired(PFLT_CALLBACK_DATA Data)
{
    KZ_INSIDE_ALONE();
    return kz_op_with(Data) ? STATUS_SUCCESS : STATUS_INVALID_PARAMETER;
}

NTSTATUS FltGetFsZeroingOffset(PFLT_CALLBACK_DATA Data, PULONG ZeroingOffset)
{
    KZ_INSIDE_ALONE();
    const KzOp *op = kz_op_with(Data);
    kz_scheduler->uses(op, KZU_READS);
    if (!op || !op->zeroing.is_set)
        return STATUS_NOT_FOUND;
    kz_gives(ZeroingOffset);
    *ZeroingOffset = op->zeroing.from;
    return STATUS_SUCCESS;
}

/* FLTFL_CALLBACK_DATA_NEW_SYSTEM_BUFFER is never set, since nothing below puts another buffer into an IRP: without it there is none. */
PVOID FltGetNewSystemBufferAddress(PFLT_CALLBACK_DATA CallbackData)
{
    KZ_INSIDE_ALONE();
    (void)CallbackData;
    return NULL;
}
