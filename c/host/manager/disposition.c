/* Creates: what they ask for, as callbacks see and change it. */
#include "manager/disposition.h"

#include "core/transaction.h"
#include "filesystem/tree.h"
#include "manager/block.h"

KzCreate kz_usual_create(ULONG disposition, bool is_directory)
{
    ULONG kind = is_directory ? FILE_DIRECTORY_FILE : FILE_NON_DIRECTORY_FILE;
    return (KzCreate){.access = FILE_GENERIC_READ | FILE_GENERIC_WRITE | DELETE,
                      .options = disposition << 24 | kind | FILE_SYNCHRONOUS_IO_NONALERT,
                      .attributes = FILE_ATTRIBUTE_NORMAL,
                      .share = FILE_SHARE_VALID_FLAGS};
}

uint8_t kz_mode_of(ULONG disposition)
{
    if (disposition == FILE_CREATE)
        return 1;
    return disposition == FILE_OPEN || disposition == FILE_OVERWRITE ? 0 : 2;
}

ULONG kz_disposition_of(uint8_t mode)
{
    return mode == 0 ? FILE_OPEN : mode == 1 ? FILE_CREATE : FILE_OPEN_IF;
}

ACCESS_MASK kz_map_access(ACCESS_MASK access)
{
    static const ACCESS_MASK all[][2] = {
        {GENERIC_READ, FILE_GENERIC_READ}, {GENERIC_WRITE, FILE_GENERIC_WRITE}, {GENERIC_EXECUTE, FILE_GENERIC_EXECUTE}, {GENERIC_ALL, FILE_ALL_ACCESS}};
    for (size_t at = 0; at < sizeof all / sizeof all[0]; at++)
        if (access & all[at][0])
            access = (access & ~all[at][0]) | all[at][1];
    return access;
}

/* ---- What is refused at once. */
#define SYNCHRONOUS (FILE_SYNCHRONOUS_IO_ALERT | FILE_SYNCHRONOUS_IO_NONALERT)
#define OF_DIRECTORIES                                                                                                                                           \
    (FILE_DIRECTORY_FILE | SYNCHRONOUS | FILE_WRITE_THROUGH | FILE_COMPLETE_IF_OPLOCKED | FILE_OPEN_FOR_BACKUP_INTENT | FILE_DELETE_ON_CLOSE |                     \
     FILE_OPEN_FOR_FREE_SPACE_QUERY | FILE_OPEN_BY_FILE_ID | FILE_OPEN_REPARSE_POINT)

static bool is_right_directory(ULONG options, ULONG disposition)
{
    bool is_opened = disposition == FILE_CREATE || disposition == FILE_OPEN || disposition == FILE_OPEN_IF;
    return !(options & FILE_DIRECTORY_FILE) || (is_opened && !(options & ~(ULONG)OF_DIRECTORIES));
}

NTSTATUS kz_check_create(const KzCreate *create)
{
    ULONG disposition = create->options >> 24, options = create->options & FILE_VALID_OPTION_FLAGS;
    bool is_wrong = create->beyond || disposition > FILE_MAXIMUM_DISPOSITION || create->share & ~(ULONG)FILE_SHARE_VALID_FLAGS || create->attributes & ~(ULONG)FILE_ATTRIBUTE_VALID_FLAGS;
    is_wrong |= (options & SYNCHRONOUS) == SYNCHRONOUS || (options & SYNCHRONOUS && !(create->access & SYNCHRONIZE));
    is_wrong |= options & FILE_DELETE_ON_CLOSE && !(create->access & DELETE);
    is_wrong |= options & FILE_COMPLETE_IF_OPLOCKED && options & FILE_RESERVE_OPFILTER;
    is_wrong |= options & FILE_NO_INTERMEDIATE_BUFFERING && create->access & FILE_APPEND_DATA;
    is_wrong |= !is_right_directory(options, disposition);
    if (is_wrong)
        return STATUS_INVALID_PARAMETER;
    return create->transaction && create->transaction->step != KZ_IS_ACTIVE ? STATUS_TRANSACTION_NOT_ACTIVE : STATUS_SUCCESS;
}

/* ---- As callbacks have it. */
void kz_begin_create(KzOp *op, const KzCreate *asked)
{
    op->asked = op->create = *asked;
    op->file->transaction = asked->transaction;
    if (!asked->ea_length)
        return;
    op->create.ea = kz_input_block(op, asked->ea_length);
    memcpy(op->create.ea, asked->ea, asked->ea_length);
}

void kz_show_create(KzOp *op, FLT_PARAMETERS *shown)
{
    const KzCreate *create = &op->visits->create;
    op->access = (ACCESS_STATE){.RemainingDesiredAccess = create->access, .OriginalDesiredAccess = create->access};
    op->security = (IO_SECURITY_CONTEXT){.AccessState = &op->access, .DesiredAccess = create->access, .FullCreateOptions = create->options & FILE_VALID_OPTION_FLAGS};
    shown->Create.SecurityContext = &op->security;
    shown->Create.Options = create->options;
    shown->Create.FileAttributes = (USHORT)create->attributes;
    shown->Create.ShareAccess = (USHORT)create->share;
    shown->Create.EaLength = create->ea_length;
    shown->Create.EaBuffer = create->ea;
    shown->Create.AllocationSize.QuadPart = create->allocation;
}

void kz_show_tag(KzOp *op)
{
    const KzBytes *point = op->met.point;
    op->tag = kz_block(op, point->length);
    memcpy(op->tag, point->bytes, point->length);
    op->tag->UnparsedNameLength = (USHORT)(op->met.rest * sizeof(WCHAR));
}

bool kz_take_create(KzOp *op)
{
    const FLT_PARAMETERS *now = &op->iopb->Parameters;
    if (now->Create.Options >> 24 > FILE_MAXIMUM_DISPOSITION)
        return false;
    op->create.access = now->Create.SecurityContext == &op->security ? op->security.DesiredAccess : op->create.access;
    op->create.options = now->Create.Options;
    op->create.attributes = now->Create.FileAttributes;
    op->create.share = now->Create.ShareAccess;
    op->create.ea = now->Create.EaBuffer;
    op->create.ea_length = now->Create.EaBuffer ? now->Create.EaLength : 0;
    op->create.allocation = now->Create.AllocationSize.QuadPart;
    return true;
}

/* ---- What a handle has to be opened for, one of several bits. Information by its class, and what has no class by its major function. */
typedef struct {
    UCHAR major;
    ULONG class;
    ACCESS_MASK any;
} Needs;

enum { ANY_CLASS = 0 };

static const Needs needs[] = {
    {IRP_MJ_QUERY_INFORMATION, FileBasicInformation, FILE_READ_ATTRIBUTES},
    {IRP_MJ_QUERY_INFORMATION, FileAllInformation, FILE_READ_ATTRIBUTES},
    {IRP_MJ_QUERY_INFORMATION, FileNetworkOpenInformation, FILE_READ_ATTRIBUTES},
    {IRP_MJ_QUERY_INFORMATION, FileAttributeTagInformation, FILE_READ_ATTRIBUTES},
    {IRP_MJ_SET_INFORMATION, FileBasicInformation, FILE_WRITE_ATTRIBUTES},
    {IRP_MJ_SET_INFORMATION, FileRenameInformation, DELETE},
    {IRP_MJ_SET_INFORMATION, FileRenameInformationEx, DELETE},
    {IRP_MJ_SET_INFORMATION, FileDispositionInformation, DELETE},
    {IRP_MJ_SET_INFORMATION, FileDispositionInformationEx, DELETE},
    {IRP_MJ_SET_INFORMATION, FileEndOfFileInformation, FILE_WRITE_DATA},
    {IRP_MJ_SET_INFORMATION, FileAllocationInformation, FILE_WRITE_DATA},
    {IRP_MJ_SET_INFORMATION, FileValidDataLengthInformation, FILE_WRITE_DATA},
    {IRP_MJ_DIRECTORY_CONTROL, ANY_CLASS, FILE_LIST_DIRECTORY},
    {IRP_MJ_QUERY_EA, ANY_CLASS, FILE_READ_EA},
    {IRP_MJ_SET_EA, ANY_CLASS, FILE_WRITE_EA},
    {IRP_MJ_SET_VOLUME_INFORMATION, ANY_CLASS, FILE_WRITE_DATA},
    {IRP_MJ_LOCK_CONTROL, ANY_CLASS, FILE_READ_DATA | FILE_WRITE_DATA},
};

/* A control code of a file system says it by itself. */
static ACCESS_MASK needed_by_code(ULONG code)
{
    return (code >> 14 & FILE_READ_ACCESS ? FILE_READ_DATA : 0) | (code >> 14 & FILE_WRITE_ACCESS ? FILE_WRITE_DATA : 0);
}

/* A descriptor by its parts. */
static ACCESS_MASK needed_by_parts(ULONG parts, bool is_set)
{
    ACCESS_MASK owner = is_set ? WRITE_OWNER : READ_CONTROL, list = is_set ? WRITE_DAC : READ_CONTROL;
    return (parts & (OWNER_SECURITY_INFORMATION | GROUP_SECURITY_INFORMATION | LABEL_SECURITY_INFORMATION) ? owner : 0) | (parts & DACL_SECURITY_INFORMATION ? list : 0) |
           (parts & SACL_SECURITY_INFORMATION ? ACCESS_SYSTEM_SECURITY : 0);
}

/* What a handle needs all of; else one bit is enough. */
static bool needs_all(const KzAsked *opaque)
{
    return opaque && (opaque->major == IRP_MJ_FILE_SYSTEM_CONTROL || opaque->major == IRP_MJ_QUERY_SECURITY || opaque->major == IRP_MJ_SET_SECURITY);
}

static ACCESS_MASK needed_by(const KzAsked *opaque)
{
    if (opaque->major == IRP_MJ_FILE_SYSTEM_CONTROL)
        return needed_by_code(opaque->code);
    if (needs_all(opaque))
        return needed_by_parts(opaque->code, opaque->major == IRP_MJ_SET_SECURITY);
    for (size_t at = 0; at < sizeof needs / sizeof needs[0]; at++)
        if (needs[at].major == opaque->major && (needs[at].class == ANY_CLASS || needs[at].class == opaque->code))
            return needs[at].any;
    return 0;
}

static ACCESS_MASK needed_for(uint8_t event)
{
    switch (event) {
    case KZE_READ:
        return FILE_READ_DATA | FILE_EXECUTE;
    case KZE_WRITE:
    case KZE_FLUSH:
        return FILE_WRITE_DATA | FILE_APPEND_DATA;
    case KZE_SET_SIZE:
        return FILE_WRITE_DATA;
    default:
        return 0;
    }
}

uint64_t kz_offset_by(const KzFile *file, LONGLONG said)
{
    return (file->access & (FILE_WRITE_DATA | FILE_APPEND_DATA)) == FILE_APPEND_DATA ? KZ_AT_END : kz_offset_of(said);
}

bool kz_is_granted(const KzFile *file, const KazdrinEvent *asked, const KzAsked *opaque)
{
    ACCESS_MASK needed = opaque ? needed_by(opaque) : needed_for(asked->event);
    return !needed || (needs_all(opaque) ? (file->access & needed) == needed : (file->access & needed) != 0);
}
