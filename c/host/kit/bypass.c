/* What a filter has to do with bypass I/O: what its key in the registry says that it knows, and its veto. */
#include "kit/bypass.h"

#include "core/client.h"
#include "core/module.h"
#include "core/op.h"
#include "kit/key.h"
#include "kit/registry.h"
#include "manager/bypass.h"
#include "manager/operation.h"

NTSTATUS FltVetoBypassIo(PFLT_CALLBACK_DATA CallbackData, PCFLT_RELATED_OBJECTS FltObjects, NTSTATUS OperationStatus, PCUNICODE_STRING FailureReason)
{
    KZ_INSIDE_ALONE();
    const FLT_PARAMETERS *now = &CallbackData->Iopb->Parameters;
    const KzOp *op = kz_op_with(CallbackData);
    kz_scheduler->uses(op, KZU_WRITES);
    FS_BPIO_OUTPUT *answer = now->FileSystemControl.Buffered.SystemBuffer;
    bool is_asked = op && op->opaque && op->opaque->major == IRP_MJ_FILE_SYSTEM_CONTROL && now->FileSystemControl.Common.FsControlCode == FSCTL_MANAGE_BYPASS_IO;
    if (!is_asked || NT_SUCCESS(OperationStatus) || now->FileSystemControl.Common.InputBufferLength < sizeof(FS_BPIO_INPUT))
        return STATUS_INVALID_PARAMETER;
    FS_BPIO_OPERATIONS operation = ((const FS_BPIO_INPUT *)(const void *)answer)->Operation;
    if (operation != FS_BPIO_OP_ENABLE && operation != FS_BPIO_OP_QUERY)
        return STATUS_INVALID_PARAMETER;
    if (now->FileSystemControl.Common.OutputBufferLength < sizeof *answer)
        return STATUS_BUFFER_TOO_SMALL;
    kz_put_bypass(answer, operation, OperationStatus, FltObjects->Filter, FailureReason ? FailureReason->Buffer : NULL, FailureReason ? FailureReason->Length / sizeof(WCHAR) : 0);
    CallbackData->IoStatus = (IO_STATUS_BLOCK){.Status = STATUS_SUCCESS, .Information = sizeof *answer};
    return STATUS_SUCCESS;
}

static void take_features(PFLT_FILTER filter)
{
    char key[KZ_KEY_NAME];
    snprintf(key, sizeof key, "%s/%.200s", KZ_SERVICES, filter->driver->name);
    const KzValue *value = *kz_find_value(key, "SupportedFeatures");
    filter->features = 0;
    if (value && value->type == REG_DWORD && value->length == sizeof filter->features)
        memcpy(&filter->features, value->data, sizeof filter->features);
}

const KzModule kz_bypass_module = {.filter_begins = take_features};
