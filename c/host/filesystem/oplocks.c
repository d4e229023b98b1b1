/* The oplocks of streams. What meets one that it breaks, and that is to be acknowledged, waits in the file system and comes to it again. */
#include "filesystem/oplocks.h"

#include "core/client.h"
#include "core/extra.h"
#include "core/module.h"
#include "core/op.h"
#include "core/told.h"
#include "filesystem/fileobject.h"
#include "filesystem/name.h"
#include "filesystem/ranges.h"
#include "filesystem/sharing.h"
#include "filesystem/waiting.h"

/* By itself it is in no oplock's way. */
#define ATTRIBUTES (FILE_READ_ATTRIBUTES | FILE_WRITE_ATTRIBUTES | SYNCHRONIZE)
#define READING (ATTRIBUTES | FILE_READ_DATA | FILE_READ_EA | FILE_EXECUTE | READ_CONTROL)

/* GUID_ECP_OPLOCK_KEY, whose words a driver has in its own binary. */
static const GUID key_of_handle = {0x48850596, 0x3050, 0x4be7, {0x98, 0x63, 0xfe, 0xc3, 0x50, 0xce, 0x8d, 0x7f}};

/* ---- Who, and what. */
static KzOplockSide side_of(const KzFile *file)
{
    return (KzOplockSide){.file = &file->object, .key = file->has_oplock_key ? &file->oplock_key : NULL};
}

KzOplockSide kz_oplock_side(const KzOp *op)
{
    KzOplockSide side = side_of(op->file);
    if (op->event == KZE_CREATE) {
        side.access = op->create.access;
        side.share = op->create.share;
    }
    return side;
}

static KzOplockUse use_of_create(const KzCreate *create)
{
    if (kz_is_emptied(create))
        return KZ_OVERWRITES;
    if (!(create->access & ~(ACCESS_MASK)ATTRIBUTES))
        return KZ_DOES_NOTHING;
    return create->access & ~(ACCESS_MASK)READING || !(create->share & FILE_SHARE_READ) ? KZ_OPENS : KZ_OPENS_TO_READ;
}

static bool is_deletion(const FLT_PARAMETERS *now)
{
    const void *said = now->SetFileInformation.InfoBuffer;
    if (now->SetFileInformation.FileInformationClass == FileDispositionInformation)
        return now->SetFileInformation.Length >= sizeof(FILE_DISPOSITION_INFORMATION) && ((const FILE_DISPOSITION_INFORMATION *)said)->DeleteFile;
    return now->SetFileInformation.Length >= sizeof(FILE_DISPOSITION_INFORMATION_EX) && ((const FILE_DISPOSITION_INFORMATION_EX *)said)->Flags & FILE_DISPOSITION_DELETE;
}

static KzOplockUse use_of_set(const FLT_PARAMETERS *now)
{
    switch ((int)now->SetFileInformation.FileInformationClass) {
    case FileEndOfFileInformation:
        return now->SetFileInformation.AdvanceOnly ? KZ_DOES_NOTHING : KZ_WRITES;
    case FileAllocationInformation:
    case FileValidDataLengthInformation:
        return KZ_WRITES;
    case FileRenameInformation:
    case FileRenameInformationEx:
    case FileLinkInformation:
    case FileLinkInformationEx:
    case FileShortNameInformation:
        return KZ_MOVES;
    case FileDispositionInformation:
    case FileDispositionInformationEx:
        return is_deletion(now) ? KZ_DELETES : KZ_DOES_NOTHING;
    default:
        return KZ_DOES_NOTHING;
    }
}

static KzOplockUse use_of_opaque(const KzOpaque *opaque, const FLT_PARAMETERS *now)
{
    switch (opaque->major) {
    case IRP_MJ_SET_INFORMATION:
        return use_of_set(now);
    case IRP_MJ_LOCK_CONTROL:
        return opaque->minor == IRP_MN_LOCK ? KZ_LOCKS : KZ_DOES_NOTHING;
    case IRP_MJ_FILE_SYSTEM_CONTROL:
        return now->FileSystemControl.Common.FsControlCode == FSCTL_SET_ZERO_DATA ? KZ_WRITES : KZ_DOES_NOTHING;
    default:
        return KZ_DOES_NOTHING;
    }
}

KzOplockUse kz_oplock_use(const KzOp *op, const FLT_PARAMETERS *now)
{
    if (op->own.irp_flags & IRP_PAGING_IO)
        return KZ_DOES_NOTHING;
    if (op->opaque)
        return use_of_opaque(op->opaque, now);
    switch (op->event) {
    case KZE_CREATE:
        return use_of_create(&op->create);
    case KZE_READ:
        return KZ_READS;
    case KZE_WRITE:
    case KZE_SET_SIZE:
        return KZ_WRITES;
    default:
        return KZ_DOES_NOTHING;
    }
}

/* ---- Breaks. */
static bool meets(KzOp *op, KzStream *stream, KzOplockUse use, unsigned kinds)
{
    const KzOplockSide side = kz_oplock_side(op);
    if (use == KZ_DOES_NOTHING || !kz_has_oplock(stream->oplock, kinds))
        return false;
    kz_uses_all();
    if (!kz_break_oplock(stream->oplock, use, &side, kinds))
        return false;
    if (op->event == KZE_CREATE && op->create.options & FILE_COMPLETE_IF_OPLOCKED) {
        op->breaks.goes_beside = true;
        return false;
    }
    op->breaks.of = stream->oplock;
    return true;
}

/* Who caches a handle below a folder that is to be renamed may close it. */
static bool meets_below(KzOp *op)
{
    const KzName *folder = op->file->name;
    for (KzName *one = kz.oplocks ? kz_all_names() : NULL; one; one = one->next)
        if (!one->is_gone && one->stream->oplock && kz_is_below(one, folder->volume, folder->text) && meets(op, one->stream, KZ_MOVES, KZ_ALL_KINDS))
            return true;
    return false;
}

/* Whether these break one isn't sure. */
static void tell_left_out(const KzOp *op)
{
    const KzOplock *oplock = op->file->name->stream->oplock;
    bool is_section = op->opaque && op->opaque->major == IRP_MJ_ACQUIRE_FOR_SECTION_SYNCHRONIZATION && op->opaque->now.AcquireForSectionSynchronization.PageProtection & (PAGE_READWRITE | PAGE_EXECUTE_READWRITE);
    if (is_section && kz_has_oplock(oplock, KZ_SHARED_KINDS))
        kz_tell(KZM_OPLOCK, "IRP_MJ_ACQUIRE_FOR_SECTION_SYNCHRONIZATION", "a section that may be written breaks no oplock here");
    if (!op->opaque && op->event == KZE_FLUSH && kz_has_oplock(oplock, KZ_KIND(KZ_READ_WRITE) | KZ_KIND(KZ_READ_WRITE_HANDLE)) && !kz_is_oplock_of(oplock, &op->file->object))
        kz_tell(KZM_OPLOCK, "IRP_MJ_FLUSH_BUFFERS", "a flush breaks no oplock here");
}

bool kz_meets_oplock(KzOp *op)
{
    if (op->file->name && op->file->name->stream->oplock)
        tell_left_out(op);
    KzOplockUse use = op->file->name ? kz_oplock_use(op, op->opaque ? &op->opaque->now : NULL) : KZ_DOES_NOTHING;
    if (use == KZ_DOES_NOTHING)
        return false;
    return meets(op, op->file->name->stream, use, KZ_ALL_KINDS) || (use == KZ_MOVES && kz_is_directory(op->file->name) && meets_below(op));
}

/* What is kept free for a handle that was opened to ask for an oplock next isn't known here. */
static void tell_between(const KzStream *stream)
{
    for (const KzFile *file = stream->opens ? kz.files : NULL; file; file = file->next)
        if (file->name && file->name->stream == stream && file->asks_next && file->is_counted)
            kz_tell(KZM_OPLOCK, "FILE_OPEN_REQUIRING_OPLOCK", "another create comes between the create and the request of the oplock: nothing is kept free for that");
}

static bool would_break(KzOp *op, KzOplockUse use)
{
    const KzOplockSide side = kz_oplock_side(op);
    return op->create.options & FILE_OPEN_REQUIRING_OPLOCK && use != KZ_DOES_NOTHING && kz_would_break_oplock(op->file->name->stream->oplock, use, &side);
}

void kz_take_oplock_key(KzOp *op)
{
    const OPLOCK_KEY_ECP_CONTEXT *said = kz_extra_of(op->ecps ? op->ecps : op->own.ecps, &key_of_handle, sizeof *said);
    op->file->has_oplock_key = said;
    if (said)
        op->file->oplock_key = said->OplockKey;
}

/* Oplocks of batch kind come before the sharing, others behind it; and whoever refuses to share, and caches the handle, may close that. */
NTSTATUS kz_open_beside(KzOp *op)
{
    KzStream *stream = op->file->name->stream;
    KzOplockUse use = use_of_create(&op->create);
    kz_take_oplock_key(op);
    tell_between(stream);
    op->breaks.goes_beside = false;
    if (op->create.options & FILE_RESERVE_OPFILTER && stream->opens)
        return STATUS_OPLOCK_NOT_GRANTED;
    if (would_break(op, use))
        return STATUS_CANNOT_BREAK_OPLOCK;
    if (meets(op, stream, use, KZ_BATCH_KINDS))
        return STATUS_PENDING;
    if (kz_may_share_file(op->file, &op->create))
        return meets(op, stream, use, KZ_ALL_KINDS & ~KZ_BATCH_KINDS) ? STATUS_PENDING : STATUS_SUCCESS;
    if (would_break(op, KZ_MEETS_SHARING))
        return STATUS_CANNOT_BREAK_OPLOCK;
    return meets(op, stream, KZ_MEETS_SHARING, KZ_ALL_KINDS) ? STATUS_PENDING : STATUS_SHARING_VIOLATION;
}

void kz_folder_changed(const KzName *name)
{
    char above[KZ_PATH];
    if (!kz.oplocks)
        return;
    const char *slash = strrchr(name->text, '/');
    snprintf(above, sizeof above, "%.*s", slash ? (int)(slash - name->text) : 0, name->text);
    const KzName *folder = *name->text && !name->base ? kz_find_name(name->volume, above) : NULL;
    const KzOplockSide anybody = {0};
    if (folder && kz_has_oplock(folder->stream->oplock, KZ_ALL_KINDS)) {
        kz_uses_all();
        kz_break_oplock(folder->stream->oplock, KZ_CHANGES_FOLDER, &anybody, KZ_ALL_KINDS);
    }
}

/* ---- Requests. */
static void end_request(void *given, const KzOplockEnd *how)
{
    KzOp *op = given;
    if (!kz_still_waits(op, op->id)) /* its volume is gone */
        return;
    op->opaque->information = how->levels ? sizeof *how->levels : how->information;
    if (how->levels)
        memcpy(op->opaque->now.FileSystemControl.Buffered.SystemBuffer, how->levels, sizeof *how->levels);
    kz_make_due(op, how->status);
}

/* Others' handles for what none may be beside, or locks of bytes for what is shared. */
static bool has_others(const KzFile *own, KzOplockKind kind)
{
    const KzOplockSide self = side_of(own);
    if (kz_is_shared_oplock(kind))
        return kz_has_ranges(own->name->stream);
    for (const KzFile *file = kz.files; file; file = file->next) {
        const KzOplockSide side = side_of(file);
        if (file != own && file->is_counted && file->name->stream == own->name->stream && !(kz_is_by_levels(kind) && kz_have_same_key(&self, &side)))
            return true;
    }
    return false;
}

static NTSTATUS request(KzOp *op, ULONG code, const REQUEST_OPLOCK_INPUT_BUFFER *input)
{
    KzFile *file = op->file;
    KzOplockKind kind = kz_oplock_asked(code, input);
    if (kind == KZ_NONE || (file->is_directory && !(kz_is_by_levels(kind) && kz_is_shared_oplock(kind))))
        return STATUS_INVALID_PARAMETER;
    file->asks_next = false;
    if (kz_is_synchronous(op)) /* an oplock is what a request waits with: who waits for the request itself has none */
        return STATUS_OPLOCK_NOT_GRANTED;
    if (file->transaction) {
        kz_tell(KZM_OPLOCK, "FSCTL_REQUEST_OPLOCK", "an oplock of a file that is open in a transaction isn't modelled: it answers STATUS_OPLOCK_NOT_GRANTED");
        return STATUS_OPLOCK_NOT_GRANTED;
    }
    if (kz_is_shared_oplock(kind) && kz_is_mapped(op, file->name->stream, 0))
        kz_tell(KZM_OPLOCK, "FSCTL_REQUEST_OPLOCK", "whether views of the file may be written isn't looked at: it is granted beside them");
    const KzOplockAsked asked = {side_of(file), has_others(file, kind), end_request, op};
    NTSTATUS status = kz_request_oplock(&file->name->stream->oplock, kind, &asked);
    return status == STATUS_PENDING ? kz_wait_in_file_system(op) : status;
}

static NTSTATUS acknowledge(KzOp *op, ULONG code, const REQUEST_OPLOCK_INPUT_BUFFER *input)
{
    const KzOplockAsked asked = {side_of(op->file), false, end_request, op};
    KzOplock *oplock = op->file->name->stream->oplock;
    NTSTATUS status = kz_acknowledge_oplock(oplock, code, input, &asked);
    if (status != STATUS_PENDING || !kz_is_synchronous(op))
        return status == STATUS_PENDING ? kz_wait_in_file_system(op) : status;
    kz_tell(KZM_OPLOCK, "FSCTL_OPLOCK_BREAK_ACKNOWLEDGE", "by a call that waits for it nothing is kept of the oplock here: it answers STATUS_SUCCESS");
    kz_cancel_oplock(oplock, op);
    return STATUS_SUCCESS;
}

static NTSTATUS wait_for_end(KzOp *op)
{
    KzOplock *oplock = op->file->name->stream->oplock;
    if (!kz_is_oplock_breaking(oplock))
        return STATUS_SUCCESS;
    op->breaks.of = oplock;
    return STATUS_PENDING;
}

static NTSTATUS by_flags(KzOp *op, const FLT_PARAMETERS *now)
{
    REQUEST_OPLOCK_INPUT_BUFFER input;
    if (now->FileSystemControl.Common.InputBufferLength < sizeof input || now->FileSystemControl.Common.OutputBufferLength < sizeof(REQUEST_OPLOCK_OUTPUT_BUFFER))
        return STATUS_BUFFER_TOO_SMALL;
    memcpy(&input, now->FileSystemControl.Buffered.SystemBuffer, sizeof input);
    bool asks = input.Flags & REQUEST_OPLOCK_INPUT_FLAG_REQUEST, acknowledges = input.Flags & REQUEST_OPLOCK_INPUT_FLAG_ACK;
    if (input.StructureVersion != REQUEST_OPLOCK_CURRENT_VERSION || asks == acknowledges)
        return STATUS_INVALID_PARAMETER;
    return asks ? request(op, FSCTL_REQUEST_OPLOCK, &input) : acknowledge(op, FSCTL_REQUEST_OPLOCK, &input);
}

NTSTATUS kz_control_oplock(KzOp *op, const FLT_PARAMETERS *now)
{
    ULONG code = now->FileSystemControl.Common.FsControlCode;
    if (!op->file->name || op->file->is_volume)
        return STATUS_INVALID_PARAMETER;
    kz_uses_all();
    switch (code) {
    case FSCTL_REQUEST_OPLOCK:
        return by_flags(op, now);
    case FSCTL_OPLOCK_BREAK_NOTIFY:
        return wait_for_end(op);
    case FSCTL_OPLOCK_BREAK_ACKNOWLEDGE:
    case FSCTL_OPLOCK_BREAK_ACK_NO_2:
    case FSCTL_OPBATCH_ACK_CLOSE_PENDING:
        return acknowledge(op, code, NULL);
    default:
        return request(op, code, NULL);
    }
}

/* ---- Waits. */
static void go_on(void *given)
{
    KzOp *op = given;
    op->breaks.of = NULL;
    op->breaks.is_over = true;
    kz.changes++;
    if (op->breaks.is_apart)
        kz_make_due(op, STATUS_PENDING);
    else
        kz_scheduler->touch(op, 0, KZT_GIVES);
}

void kz_wait_for_break(KzOp *op, bool is_apart)
{
    op->breaks.is_apart = is_apart;
    op->breaks.is_over = false;
    kz_wait_for_oplock(op->breaks.of, go_on, op);
    if (is_apart)
        kz_wait_in_file_system(op);
}

bool kz_is_break_of(const KzOp *op, const KzFile *file)
{
    return kz_is_oplock_of(op->breaks.of, &file->object);
}

void kz_wait_no_more_for_break(KzOp *op)
{
    if (op->breaks.of)
        kz_wait_no_more(op->breaks.of, op);
    op->breaks.of = NULL;
}

bool kz_cancel_oplock_of(KzOp *op)
{
    kz_wait_no_more_for_break(op);
    return op->opaque && op->file->name && kz_cancel_oplock(op->file->name->stream->oplock, op);
}

static void end_of(KzStream *stream, const void *file)
{
    kz_give_up_oplock(stream->oplock, file);
    kz_tidy_oplock(&stream->oplock);
}

void kz_end_oplocks(const KzFile *file, PFLT_VOLUME volume)
{
    if (file && file->name)
        end_of(file->name->stream, &file->object);
    for (const KzName *one = !file && kz.oplocks ? kz_all_names() : NULL; one; one = one->next)
        if (one->volume == volume)
            end_of(one->stream, NULL);
}

const KzModule kz_oplocks_module = {.operation_ends = kz_wait_no_more_for_break};
