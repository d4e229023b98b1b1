/* Bypass I/O: who asked for it, and has a handle that isn't cached, reads without a filter that hears of it. Each filter on the volume has to say that it knows of that. */
#include "manager/bypass.h"

#include "core/client.h"
#include "core/op.h"
#include "core/told.h"
#include "filesystem/tree.h"
#include "lib/letters.h"

static bool is_attached(PFLT_INSTANCE instance)
{
    KazdrinTold told = {0};
    kz_scheduler->uses(&instance->torn_down_by, KZU_READS);
    kazdrin_phase(&kz.manager, &(KazdrinEvent){.mode = KZP_OF_INSTANCE, .instance = instance->id}, &told);
    return told.has && told.number == KZP_INSTANCE_ATTACHED;
}

/* One that is attached, and whose SupportedFeatures don't have it. */
static PFLT_FILTER blocker(PFLT_VOLUME volume)
{
    for (size_t at = 0; at < kz.instances_count; at++) {
        PFLT_INSTANCE one = kz.instances[at];
        if (one->volume == volume && !(one->filter->features & SUPPORTED_FS_FEATURES_BYPASS_IO) && is_attached(one))
            return one->filter;
    }
    return NULL;
}

bool kz_is_bypassed(const KzFile *file, const KazdrinEvent *asked)
{
    bool is_asked = asked->event == KZE_READ && file && file->object.Flags & FO_BYPASS_IO_ENABLED && file->object.Flags & FO_NO_INTERMEDIATE_BUFFERING;
    return is_asked && file->name && !file->name->stream->cache && !blocker(file->volume);
}

static USHORT put(WCHAR *room, size_t most, const WCHAR *letters, size_t count)
{
    count = count < most ? count : most;
    memcpy(room, letters, count * sizeof *letters);
    return (USHORT)(count * sizeof *letters);
}

void kz_put_bypass(FS_BPIO_OUTPUT *answer, FS_BPIO_OPERATIONS operation, NTSTATUS status, PFLT_FILTER by, const WCHAR *reason, size_t letters)
{
    WCHAR name[256];
    FS_BPIO_RESULTS *said = &answer->Enable;
    memset(answer, 0, sizeof *answer);
    answer->Operation = operation;
    said->OpStatus = status;
    if (by) {
        char text[200];
        snprintf(text, sizeof text, "%.190s", by->driver->name);
        said->FailingDriverNameLen = put(said->FailingDriverName, 32, name, kz_widen(name, text) / sizeof(WCHAR));
    }
    said->FailureReasonLen = put(said->FailureReason, 128, reason, letters);
}

static ULONG count_of(PFLT_VOLUME volume)
{
    ULONG count = 0;
    for (const KzFile *file = kz.files; file; file = file->next)
        count += file->volume == volume && file->object.Flags & FO_BYPASS_IO_ENABLED;
    return count;
}

/* What the filter manager has against it. */
static NTSTATUS refused(KzOp *op, FS_BPIO_OUTPUT *answer, FS_BPIO_OPERATIONS operation)
{
    static const WCHAR reason[] = u"The specified minifilter does not support bypass IO.";
    PFLT_FILTER by = blocker(op->volume);
    kz_put_bypass(answer, operation, by ? STATUS_BYPASSIO_FLT_NOT_SUPPORTED : STATUS_SUCCESS, by, reason, by ? sizeof reason / sizeof *reason - 1 : 0);
    answer->OutFlags = by ? FSBPIO_OUTFL_None : FSBPIO_OUTFL_COMPATIBLE_STORAGE_DRIVER;
    return answer->Enable.OpStatus;
}

static NTSTATUS manage(KzOp *op, FS_BPIO_OPERATIONS operation, FS_BPIO_OUTPUT *answer)
{
    ULONG *flags = &op->file->object.Flags;
    bool is_file = op->file->name && !op->file->is_directory;
    switch (operation) {
    case FS_BPIO_OP_ENABLE:
        if (!is_file)
            return STATUS_INVALID_PARAMETER;
        if (NT_SUCCESS(refused(op, answer, operation)))
            *flags |= FO_BYPASS_IO_ENABLED;
        return STATUS_SUCCESS;
    case FS_BPIO_OP_QUERY:
        refused(op, answer, operation);
        return STATUS_SUCCESS;
    case FS_BPIO_OP_DISABLE:
        *flags &= ~(ULONG)FO_BYPASS_IO_ENABLED;
        memset(answer, 0, sizeof *answer);
        answer->Operation = operation;
        return is_file ? STATUS_SUCCESS : STATUS_INVALID_PARAMETER;
    case FS_BPIO_OP_GET_INFO:
        memset(answer, 0, sizeof *answer);
        answer->Operation = operation;
        answer->GetInfo.ActiveBypassIoCount = count_of(op->volume);
        return STATUS_SUCCESS;
    default:
        kz_tell(KZM_NOT_MODELLED, "FSCTL_MANAGE_BYPASS_IO", "a pause or a resumption isn't modelled: it answers STATUS_INVALID_DEVICE_REQUEST");
        return STATUS_INVALID_DEVICE_REQUEST;
    }
}

bool kz_manages_bypass(KzOp *op, NTSTATUS *status)
{
    const FLT_PARAMETERS *now = &op->iopb->Parameters;
    const FS_BPIO_INPUT *said = now->FileSystemControl.Buffered.SystemBuffer;
    if (op->opaque->major != IRP_MJ_FILE_SYSTEM_CONTROL || now->FileSystemControl.Common.FsControlCode != FSCTL_MANAGE_BYPASS_IO || op->volume->type != FLT_FSTYPE_NTFS)
        return false;
    kz_uses_all();
    if (now->FileSystemControl.Common.InputBufferLength < sizeof *said)
        *status = STATUS_INVALID_PARAMETER;
    else if (now->FileSystemControl.Common.OutputBufferLength < sizeof(FS_BPIO_OUTPUT))
        *status = STATUS_BUFFER_TOO_SMALL;
    else
        *status = manage(op, said->Operation, now->FileSystemControl.Buffered.SystemBuffer);
    op->opaque->information = NT_SUCCESS(*status) ? sizeof(FS_BPIO_OUTPUT) : 0;
    return true;
}
