/* The parameters of an operation that the manager doesn't look into: what goes down, and the room for what comes up, are memory of the operation. */
#include "manager/fill.h"

#include "core/access.h"
#include "core/op.h"
#include "lib/letters.h"
#include "manager/block.h"

static void *input(KzOp *op, const KzAsked *asked)
{
    if (!asked->input_size)
        return NULL;
    return memcpy(kz_input_block(op, asked->input_size), asked->input, asked->input_size);
}

/* What the system doesn't copy is the program's own memory. */
bool kz_is_uncopied(const KzAsked *asked)
{
    switch (asked->major) {
    case IRP_MJ_DIRECTORY_CONTROL:
    case IRP_MJ_QUERY_EA:
    case IRP_MJ_QUERY_QUOTA:
    case IRP_MJ_QUERY_SECURITY:
        return !(asked->irp_flags & IRP_BUFFERED_IO);
    case IRP_MJ_FILE_SYSTEM_CONTROL:
    case IRP_MJ_DEVICE_CONTROL:
        return METHOD_FROM_CTL_CODE(asked->code) == METHOD_NEITHER;
    default:
        return false;
    }
}

static void *room_for(KzOp *op, const KzAsked *asked)
{
    if (!op->opaque->is_programs)
        return kz_output_block(op, asked->room);
    void *made = kz_caller_block(op, asked->room);
    kz_own(made, KZ_CALLERS, op->process);
    return made;
}

static void *output(KzOp *op, const KzAsked *asked)
{
    op->opaque->output_size = asked->room;
    return op->opaque->output = room_for(op, asked);
}

static PUNICODE_STRING pattern(KzOp *op, const char *text)
{
    PUNICODE_STRING name = kz_block(op, sizeof *name);
    PWSTR letters = kz_block(op, strlen(text) * sizeof(WCHAR));
    USHORT length = (USHORT)kz_widen(letters, text);
    *name = (UNICODE_STRING){length, length, letters};
    return name;
}

/* One buffer for both ways, but where the code leaves them to who answers it. */
static void fill_control(KzOp *op, const KzAsked *asked, FLT_PARAMETERS *now)
{
    size_t room = asked->input_size > asked->room ? asked->input_size : asked->room;
    uint8_t *buffer = room ? kz_input_block(op, room) : NULL;
    if (asked->input_size)
        memcpy(buffer, asked->input, asked->input_size);
    if (op->opaque->is_programs)
        kz_own(buffer, KZ_CALLERS, op->process);
    now->FileSystemControl.Buffered.InputBufferLength = (ULONG)asked->input_size;
    now->FileSystemControl.Buffered.OutputBufferLength = (ULONG)asked->room;
    now->FileSystemControl.Buffered.FsControlCode = asked->code;
    now->FileSystemControl.Buffered.SystemBuffer = buffer;
    if (METHOD_FROM_CTL_CODE(asked->code) == METHOD_NEITHER)
        now->FileSystemControl.Neither.OutputBuffer = buffer = asked->room ? room_for(op, asked) : NULL;
    op->opaque->output = asked->room ? buffer : NULL;
    op->opaque->output_size = asked->room;
}

static void fill_lock(KzOp *op, const KzAsked *asked, FLT_PARAMETERS *now)
{
    LARGE_INTEGER *length = kz_block(op, sizeof *length);
    length->QuadPart = (LONGLONG)asked->length;
    now->LockControl.Length = length;
    now->LockControl.ByteOffset.QuadPart = (LONGLONG)asked->from;
    now->LockControl.ProcessId = IoThreadToProcess(op->thread);
    now->LockControl.FailImmediately = (asked->flags & SL_FAIL_IMMEDIATELY) != 0;
    now->LockControl.ExclusiveLock = (asked->flags & SL_EXCLUSIVE_LOCK) != 0;
}

static void fill_directory(KzOp *op, const KzAsked *asked, FLT_PARAMETERS *now)
{
    if (asked->minor == IRP_MN_NOTIFY_CHANGE_DIRECTORY) {
        now->DirectoryControl.NotifyDirectory.Length = (ULONG)asked->room;
        now->DirectoryControl.NotifyDirectory.CompletionFilter = asked->code;
        now->DirectoryControl.NotifyDirectory.DirectoryBuffer = output(op, asked);
        return;
    }
    now->DirectoryControl.QueryDirectory.Length = (ULONG)asked->room;
    now->DirectoryControl.QueryDirectory.FileInformationClass = (FILE_INFORMATION_CLASS)asked->code;
    now->DirectoryControl.QueryDirectory.FileName = asked->pattern ? pattern(op, asked->pattern) : NULL;
    now->DirectoryControl.QueryDirectory.DirectoryBuffer = output(op, asked);
}

static void fill_query(KzOp *op, const KzAsked *asked, FLT_PARAMETERS *now)
{
    now->QueryFileInformation.Length = (ULONG)asked->room;
    now->QueryFileInformation.FileInformationClass = (FILE_INFORMATION_CLASS)asked->code;
    now->QueryFileInformation.InfoBuffer = output(op, asked);
}

static void fill_set(KzOp *op, const KzAsked *asked, FLT_PARAMETERS *now)
{
    PFILE_RENAME_INFORMATION name = input(op, asked);
    bool is_name = asked->code == FileRenameInformation || asked->code == FileLinkInformation;
    now->SetFileInformation.Length = (ULONG)asked->input_size;
    now->SetFileInformation.FileInformationClass = (FILE_INFORMATION_CLASS)asked->code;
    now->SetFileInformation.InfoBuffer = name;
    now->SetFileInformation.AdvanceOnly = asked->advances;
    if (is_name && asked->input_size >= sizeof(FILE_RENAME_INFORMATION))
        now->SetFileInformation.ReplaceIfExists = name->ReplaceIfExists;
    now->SetFileInformation.ParentOfTarget = asked->target ? &asked->target->object : NULL;
    op->opaque->target = asked->target;
}

static void fill_volume(KzOp *op, const KzAsked *asked, FLT_PARAMETERS *now)
{
    bool is_query = asked->major == IRP_MJ_QUERY_VOLUME_INFORMATION;
    now->QueryVolumeInformation.Length = (ULONG)(is_query ? asked->room : asked->input_size);
    now->QueryVolumeInformation.FsInformationClass = (FS_INFORMATION_CLASS)asked->code;
    now->QueryVolumeInformation.VolumeBuffer = is_query ? output(op, asked) : input(op, asked);
}

/* Bytes that a file has beside its own. */
static void fill_beside(KzOp *op, const KzAsked *asked, FLT_PARAMETERS *now)
{
    switch (asked->major) {
    case IRP_MJ_QUERY_EA:
        now->QueryEa.Length = (ULONG)asked->room;
        now->QueryEa.EaBuffer = output(op, asked);
        now->QueryEa.EaList = asked->input_size ? input(op, asked) : NULL;
        now->QueryEa.EaListLength = (ULONG)asked->input_size;
        now->QueryEa.EaIndex = (ULONG)asked->from;
        break;
    case IRP_MJ_SET_EA:
        now->SetEa.Length = (ULONG)asked->input_size;
        now->SetEa.EaBuffer = input(op, asked);
        break;
    case IRP_MJ_QUERY_SECURITY:
        now->QuerySecurity.SecurityInformation = asked->code;
        now->QuerySecurity.Length = (ULONG)asked->room;
        now->QuerySecurity.SecurityBuffer = output(op, asked);
        break;
    case IRP_MJ_SET_SECURITY:
        now->SetSecurity.SecurityInformation = asked->code;
        now->SetSecurity.SecurityDescriptor = input(op, asked);
        break;
    case IRP_MJ_QUERY_QUOTA:
        now->QueryQuota.Length = (ULONG)asked->room;
        now->QueryQuota.QuotaBuffer = output(op, asked);
        break;
    default:
        now->SetQuota.Length = (ULONG)asked->input_size;
        now->SetQuota.QuotaBuffer = input(op, asked);
    }
}

void kz_fill_opaque(KzOp *op, const KzAsked *asked)
{
    FLT_PARAMETERS *now = &op->opaque->now;
    switch (asked->major) {
    case IRP_MJ_QUERY_INFORMATION:
        fill_query(op, asked, now);
        break;
    case IRP_MJ_SET_INFORMATION:
        fill_set(op, asked, now);
        break;
    case IRP_MJ_QUERY_VOLUME_INFORMATION:
    case IRP_MJ_SET_VOLUME_INFORMATION:
        fill_volume(op, asked, now);
        break;
    case IRP_MJ_DIRECTORY_CONTROL:
        fill_directory(op, asked, now);
        break;
    case IRP_MJ_FILE_SYSTEM_CONTROL:
    case IRP_MJ_DEVICE_CONTROL:
    case IRP_MJ_INTERNAL_DEVICE_CONTROL:
        fill_control(op, asked, now);
        break;
    case IRP_MJ_LOCK_CONTROL:
        fill_lock(op, asked, now);
        break;
    case IRP_MJ_QUERY_EA:
    case IRP_MJ_SET_EA:
    case IRP_MJ_QUERY_SECURITY:
    case IRP_MJ_SET_SECURITY:
    case IRP_MJ_QUERY_QUOTA:
    case IRP_MJ_SET_QUOTA:
        fill_beside(op, asked, now);
        break;
    case IRP_MJ_ACQUIRE_FOR_SECTION_SYNCHRONIZATION:
        now->AcquireForSectionSynchronization.SyncType = SyncTypeCreateSection;
        now->AcquireForSectionSynchronization.PageProtection = asked->code;
        break;
    case IRP_MJ_NETWORK_QUERY_OPEN:
        now->NetworkQueryOpen.NetworkInformation = output(op, asked);
        break;
    }
}
