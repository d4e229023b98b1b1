/* What the file system makes of the other operations: security, quotas, locks of bytes, control codes, sections, and what has no file. */
#include "filesystem/control.h"

#include "core/memory.h"
#include "core/op.h"
#include "core/told.h"
#include "filesystem/ea.h"
#include "filesystem/fsctl.h"
#include "filesystem/journal.h"
#include "filesystem/name.h"
#include "filesystem/record.h"
#include "filesystem/notice.h"
#include "filesystem/oplocks.h"
#include "filesystem/query.h"
#include "filesystem/ranges.h"
#include "filesystem/tag.h"
#include "filesystem/tree.h"
#include "filesystem/version.h"
#include "lib/descriptor.h"

/* ---- Security: a descriptor that stands in one piece, as it was set; where none was, one of nobody's, with no lists. */
static NTSTATUS set_security(KzOp *op, const FLT_PARAMETERS *now)
{
    size_t length = op->opaque->input_size;
    KzBytes *kept = &op->file->name->file->beside.security;
    SECURITY_INFORMATION what = now->SetSecurity.SecurityInformation;
    if (!kz_is_descriptor(now->SetSecurity.SecurityDescriptor, length))
        return STATUS_INVALID_SECURITY_DESCR;
    uint8_t *made = kz_memory(length + kept->length + sizeof KZ_NO_DESCRIPTOR);
    length = kz_join_descriptors(now->SetSecurity.SecurityDescriptor, what, kept->length ? kept->bytes : KZ_NO_DESCRIPTOR, ~what, made);
    kz_keep_bytes(kept, made, length);
    free(made);
    kz_changed(op->file->name, FILE_NOTIFY_CHANGE_SECURITY, FILE_ACTION_MODIFIED);
    return STATUS_SUCCESS;
}

static NTSTATUS query_security(KzOp *op, const FLT_PARAMETERS *now)
{
    const KzBytes *kept = &kz_beside_of(op->file->name->file, op->file->transaction)->security;
    uint8_t *made = kz_memory(kept->length + sizeof KZ_NO_DESCRIPTOR);
    size_t length = kz_join_descriptors(kept->length ? kept->bytes : KZ_NO_DESCRIPTOR, now->QuerySecurity.SecurityInformation, NULL, 0, made);
    bool has_room = now->QuerySecurity.Length >= length;
    op->opaque->information = length; /* also of what has no room */
    if (has_room)
        memcpy(now->QuerySecurity.SecurityBuffer, made, length);
    free(made);
    return has_room ? STATUS_SUCCESS : STATUS_BUFFER_OVERFLOW;
}

/* ---- Locks of bytes. */
/* A driver that waits for its own request isn't let wait here. */
static NTSTATUS take_range(KzOp *op, const KzRange *range, bool fails)
{
    if (!fails && !op->own.is_waited_for)
        return kz_wait_for_range(op, range);
    NTSTATUS status = kz_lock_range(op->file, range);
    if (!fails && status == STATUS_LOCK_NOT_GRANTED)
        kz_tell(KZM_NOBODY_SETS, "IRP_MJ_LOCK_CONTROL", "a lock that another handle has, which a driver's own request would wait for: it answers STATUS_LOCK_NOT_GRANTED");
    return status;
}

static NTSTATUS lock(KzOp *op, const FLT_PARAMETERS *now)
{
    const KzRange range = {(uint64_t)now->LockControl.ByteOffset.QuadPart, now->LockControl.Length ? (uint64_t)now->LockControl.Length->QuadPart : 0, now->LockControl.ExclusiveLock, now->LockControl.Key};
    if (op->file->is_directory)
        return STATUS_INVALID_PARAMETER;
    switch (op->opaque->minor) {
    case IRP_MN_LOCK:
        return take_range(op, &range, now->LockControl.FailImmediately);
    case IRP_MN_UNLOCK_SINGLE:
        return kz_unlock_range(op->file, &range);
    case IRP_MN_UNLOCK_ALL:
        return kz_unlock_ranges(op->file, NULL);
    default:
        return kz_unlock_ranges(op->file, &range.key);
    }
}

/* ---- Volumes: one is locked for who opened it, if no file on it is open; it goes with the handle by which its dismount was asked for. */
static bool has_others(const KzFile *own)
{
    for (const KzFile *file = kz.files; file; file = file->next)
        if (file != own && file->volume == own->volume && file->is_counted)
            return true;
    return false;
}

static NTSTATUS lock_volume(KzFile *file)
{
    if (file->volume->locker || has_others(file))
        return STATUS_ACCESS_DENIED;
    file->volume->locker = file;
    return STATUS_SUCCESS;
}

void kz_unlock_volume(const KzFile *file)
{
    if (file->volume->locker == file)
        file->volume->locker = NULL;
}

static NTSTATUS control_volume(KzFile *file, ULONG code)
{
    if (!file->is_volume)
        return STATUS_INVALID_PARAMETER;
    if (code == FSCTL_LOCK_VOLUME)
        return lock_volume(file);
    if (code == FSCTL_UNLOCK_VOLUME && file->volume->locker != file)
        return STATUS_NOT_LOCKED;
    if (code == FSCTL_UNLOCK_VOLUME)
        kz_unlock_volume(file);
    else
        file->volume->is_to_go = true;
    return STATUS_SUCCESS;
}

/* ---- Control codes: those that a file system here knows. */
static NTSTATUS control(KzOp *op, const FLT_PARAMETERS *now)
{
    USHORT *compressed = now->FileSystemControl.Buffered.SystemBuffer;
    if (kz_is_tag_control(now->FileSystemControl.Common.FsControlCode))
        return kz_control_tag(op, now);
    if (kz_is_oplock_code(now->FileSystemControl.Common.FsControlCode))
        return kz_control_oplock(op, now);
    switch (now->FileSystemControl.Common.FsControlCode) {
    case FSCTL_LOCK_VOLUME:
    case FSCTL_UNLOCK_VOLUME:
    case FSCTL_DISMOUNT_VOLUME:
        return control_volume(op->file, now->FileSystemControl.Common.FsControlCode);
    case FSCTL_IS_VOLUME_MOUNTED:
    case FSCTL_SET_COMPRESSION:
        return STATUS_SUCCESS;
    case FSCTL_GET_COMPRESSION:
        if (now->FileSystemControl.Common.OutputBufferLength < sizeof *compressed)
            return STATUS_INVALID_PARAMETER;
        *compressed = 0;
        op->opaque->information = sizeof *compressed;
        return STATUS_SUCCESS;
    default:
        return kz_control_file(op, now);
    }
}

static NTSTATUS network_open(KzOp *op, const FLT_PARAMETERS *now)
{
    KzName *name = op->file->name;
    if (!name || !kz_is_there(name))
        return STATUS_OBJECT_NAME_NOT_FOUND;
    kz_show_network(name->stream, NULL, now->NetworkQueryOpen.NetworkInformation);
    op->opaque->information = sizeof(FILE_NETWORK_OPEN_INFORMATION);
    return STATUS_SUCCESS;
}

/* What is of a file that has a name here. */
static NTSTATUS of_file(KzOp *op, const FLT_PARAMETERS *now)
{
    switch (op->opaque->major) {
    case IRP_MJ_QUERY_EA:
        return kz_query_ea(op, now);
    case IRP_MJ_SET_EA:
        return kz_set_ea(op, now);
    case IRP_MJ_QUERY_SECURITY:
        return query_security(op, now);
    case IRP_MJ_SET_SECURITY:
        return set_security(op, now);
    default:
        return lock(op, now);
    }
}

NTSTATUS kz_answer_other(KzOp *op, const FLT_PARAMETERS *now)
{
    switch (op->opaque->major) {
    case IRP_MJ_QUERY_EA:
    case IRP_MJ_SET_EA:
    case IRP_MJ_QUERY_SECURITY:
    case IRP_MJ_SET_SECURITY:
    case IRP_MJ_LOCK_CONTROL:
        return op->file->name ? of_file(op, now) : STATUS_INVALID_PARAMETER;
    case IRP_MJ_FILE_SYSTEM_CONTROL:
        return control(op, now);
    case IRP_MJ_NETWORK_QUERY_OPEN:
        return network_open(op, now);
    case IRP_MJ_SHUTDOWN:
    case IRP_MJ_PNP:
    case IRP_MJ_ACQUIRE_FOR_SECTION_SYNCHRONIZATION:
    case IRP_MJ_RELEASE_FOR_SECTION_SYNCHRONIZATION:
    case IRP_MJ_ACQUIRE_FOR_CC_FLUSH:
    case IRP_MJ_RELEASE_FOR_CC_FLUSH:
    case IRP_MJ_ACQUIRE_FOR_MOD_WRITE:
    case IRP_MJ_RELEASE_FOR_MOD_WRITE:
        return STATUS_SUCCESS;
    default: /* a device's own codes, and quotas, which nobody set up */
        return STATUS_INVALID_DEVICE_REQUEST;
    }
}
