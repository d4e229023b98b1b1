/* Reparse points: a tag of a file, and the bytes that its owner keeps with it. */
#include "filesystem/tag.h"

#include "core/op.h"
#include "lib/letters.h"
#include "filesystem/deletion.h"
#include "filesystem/journal.h"
#include "filesystem/name.h"
#include "filesystem/record.h"
#include "filesystem/notice.h"
#include "filesystem/sharing.h"
#include "filesystem/version.h"

/* As it was set: a header, with a GUID where the tag isn't Microsoft's, and its data. */
static const REPARSE_DATA_BUFFER *point_of(const KzRecord *record)
{
    return record->beside.reparse.length ? (const REPARSE_DATA_BUFFER *)record->beside.reparse.bytes : NULL;
}

ULONG kz_tag_of(const KzRecord *record)
{
    const REPARSE_DATA_BUFFER *point = point_of(record);
    return point ? point->ReparseTag : 0;
}

static size_t head_of(ULONG tag)
{
    return IsReparseTagMicrosoft(tag) ? offsetof(REPARSE_DATA_BUFFER, GenericReparseBuffer) : offsetof(REPARSE_GUID_DATA_BUFFER, GenericReparseBuffer);
}

static const GUID *guid_of(const REPARSE_DATA_BUFFER *point)
{
    return &((const REPARSE_GUID_DATA_BUFFER *)point)->ReparseGuid;
}

/* Those that the system goes on with by itself. */
static bool is_followed(ULONG tag)
{
    return tag == IO_REPARSE_TAG_SYMLINK || tag == IO_REPARSE_TAG_MOUNT_POINT;
}

/* How many bytes stand before the names of a link's or a mount point's data. */
static size_t names_in(ULONG tag)
{
    size_t names = tag == IO_REPARSE_TAG_SYMLINK ? offsetof(REPARSE_DATA_BUFFER, SymbolicLinkReparseBuffer.PathBuffer) : offsetof(REPARSE_DATA_BUFFER, MountPointReparseBuffer.PathBuffer);
    return names - offsetof(REPARSE_DATA_BUFFER, GenericReparseBuffer);
}

/* Whether the name to go on with lies in the data. */
static bool has_target(ULONG tag, size_t length, const void *data)
{
    const USHORT *numbers = data; /* where the name is, and how many bytes it has */
    size_t head = names_in(tag);
    return length > head && numbers[1] && head + numbers[0] + numbers[1] <= length;
}

/* ---- Setting and taking off. */
static NTSTATUS check(const REPARSE_DATA_BUFFER *said, size_t length)
{
    if (length < offsetof(REPARSE_DATA_BUFFER, GenericReparseBuffer) || length > MAXIMUM_REPARSE_DATA_BUFFER_SIZE)
        return STATUS_IO_REPARSE_DATA_INVALID;
    if (said->ReparseTag <= IO_REPARSE_TAG_RESERVED_RANGE)
        return STATUS_IO_REPARSE_TAG_INVALID;
    if (length != head_of(said->ReparseTag) + said->ReparseDataLength)
        return STATUS_IO_REPARSE_DATA_INVALID;
    static const GUID none;
    bool is_nobodys = !IsReparseTagMicrosoft(said->ReparseTag) && memcmp(guid_of(said), &none, sizeof none) == 0;
    return is_nobodys ? STATUS_IO_REPARSE_DATA_INVALID : STATUS_SUCCESS;
}

/* One that is there is changed, or taken off, by its owner alone. */
static NTSTATUS check_owner(const REPARSE_DATA_BUFFER *point, ULONG tag, const GUID *guid)
{
    if (point->ReparseTag != tag)
        return STATUS_IO_REPARSE_TAG_MISMATCH;
    return IsReparseTagMicrosoft(tag) || memcmp(guid_of(point), guid, sizeof *guid) == 0 ? STATUS_SUCCESS : STATUS_REPARSE_ATTRIBUTE_CONFLICT;
}

static NTSTATUS set(KzName *name, const REPARSE_DATA_BUFFER *said, size_t length)
{
    NTSTATUS status = check(said, length);
    if (!NT_SUCCESS(status))
        return status;
    if (is_followed(said->ReparseTag) && !has_target(said->ReparseTag, said->ReparseDataLength, &said->GenericReparseBuffer))
        return STATUS_IO_REPARSE_DATA_INVALID;
    if (point_of(name->file) && !NT_SUCCESS(status = check_owner(point_of(name->file), said->ReparseTag, guid_of(said))))
        return status;
    if (kz_is_directory(name) && !IsReparseTagDirectory(said->ReparseTag) && !kz_is_empty(name))
        return STATUS_DIRECTORY_NOT_EMPTY;
    kz_keep_bytes(&name->file->beside.reparse, said, length);
    name->file->attributes = (name->file->attributes & ~(ULONG)FILE_ATTRIBUTE_NORMAL) | FILE_ATTRIBUTE_REPARSE_POINT;
    kz_journal(name, USN_REASON_REPARSE_POINT_CHANGE);
    kz_notify(name, FILE_NOTIFY_CHANGE_ATTRIBUTES, FILE_ACTION_MODIFIED);
    return STATUS_SUCCESS;
}

/* With a header alone, which says whose it is. */
static NTSTATUS take_off(KzName *name, const REPARSE_DATA_BUFFER *said, size_t length)
{
    NTSTATUS status = check(said, length);
    if (!NT_SUCCESS(status) || said->ReparseDataLength)
        return NT_SUCCESS(status) ? STATUS_IO_REPARSE_DATA_INVALID : status;
    if (!point_of(name->file))
        return STATUS_NOT_A_REPARSE_POINT;
    status = check_owner(point_of(name->file), said->ReparseTag, guid_of(said));
    if (!NT_SUCCESS(status))
        return status;
    kz_forget_tag(name->file);
    kz_journal(name, USN_REASON_REPARSE_POINT_CHANGE);
    kz_notify(name, FILE_NOTIFY_CHANGE_ATTRIBUTES, FILE_ACTION_MODIFIED);
    return STATUS_SUCCESS;
}

static NTSTATUS get(KzOp *op, const FLT_PARAMETERS *now)
{
    const KzBytes *kept = &kz_beside_of(op->file->name->file, op->file->transaction)->reparse;
    ULONG room = now->FileSystemControl.Common.OutputBufferLength;
    if (!room)
        return STATUS_INVALID_USER_BUFFER;
    if (!kept->length)
        return STATUS_NOT_A_REPARSE_POINT;
    if (room < offsetof(REPARSE_DATA_BUFFER, GenericReparseBuffer))
        return STATUS_BUFFER_TOO_SMALL;
    size_t length = kept->length < room ? kept->length : room;
    memcpy(now->FileSystemControl.Buffered.SystemBuffer, kept->bytes, op->opaque->information = length);
    return length < kept->length ? STATUS_BUFFER_OVERFLOW : STATUS_SUCCESS;
}

/* ---- The extended codes say which tag has to be there, if one is. */
static NTSTATUS check_existing(const KzRecord *record, const REPARSE_DATA_BUFFER_EX *said, size_t length)
{
    if (length < offsetof(REPARSE_DATA_BUFFER_EX, ReparseDataBuffer) || said->Flags & ~(ULONG)REPARSE_DATA_EX_FLAG_GIVEN_TAG_OR_NONE)
        return STATUS_INVALID_PARAMETER;
    if (!point_of(record))
        return said->Flags & REPARSE_DATA_EX_FLAG_GIVEN_TAG_OR_NONE || !said->ExistingReparseTag ? STATUS_SUCCESS : STATUS_IO_REPARSE_TAG_MISMATCH;
    return check_owner(point_of(record), said->ExistingReparseTag, &said->ExistingReparseGuid);
}

/* The one that it names goes, whatever the new one is. */
static NTSTATUS control_extended(KzName *name, const REPARSE_DATA_BUFFER_EX *said, size_t length, bool is_set)
{
    NTSTATUS status = check_existing(name->file, said, length);
    size_t rest = length - offsetof(REPARSE_DATA_BUFFER_EX, ReparseDataBuffer);
    if (!NT_SUCCESS(status))
        return status;
    if (!is_set)
        return take_off(name, &said->ReparseDataBuffer, rest);
    status = check(&said->ReparseDataBuffer, rest);
    if (NT_SUCCESS(status))
        kz_forget_tag(name->file);
    return NT_SUCCESS(status) ? set(name, &said->ReparseDataBuffer, rest) : status;
}

bool kz_is_tag_control(ULONG code)
{
    return code == FSCTL_SET_REPARSE_POINT || code == FSCTL_GET_REPARSE_POINT || code == FSCTL_DELETE_REPARSE_POINT || code == FSCTL_SET_REPARSE_POINT_EX ||
           code == FSCTL_DELETE_REPARSE_POINT_EX;
}

NTSTATUS kz_control_tag(KzOp *op, const FLT_PARAMETERS *now)
{
    KzName *name = op->file->name;
    const void *said = now->FileSystemControl.Buffered.SystemBuffer;
    size_t length = now->FileSystemControl.Buffered.InputBufferLength;
    if (!name)
        return STATUS_INVALID_PARAMETER;
    switch (now->FileSystemControl.Common.FsControlCode) {
    case FSCTL_GET_REPARSE_POINT:
        return get(op, now);
    case FSCTL_SET_REPARSE_POINT:
        return set(name, said, length);
    case FSCTL_DELETE_REPARSE_POINT:
        return take_off(name, said, length);
    default:
        return control_extended(name, said, length, now->FileSystemControl.Common.FsControlCode == FSCTL_SET_REPARSE_POINT_EX);
    }
}

/* ---- A create that comes upon one. */
static bool meet(KzOp *op, const KzBytes *point, size_t rest)
{
    op->met.point = point;
    op->met.rest = rest;
    op->file->created = ((const REPARSE_DATA_BUFFER *)point->bytes)->ReparseTag;
    return true;
}

/* As who opens it sees it. */
static const KzBytes *seen_point(const KzOp *op, const KzName *name)
{
    const KzBytes *point = name && name->file->exists ? &kz_beside_of(name->file, op->file->transaction)->reparse : NULL;
    return point && point->length ? point : NULL;
}

/* Whether a filter wants it opened by itself. */
static bool is_to_open(const KzOp *op, const REPARSE_DATA_BUFFER *point)
{
    for (const LIST_ENTRY *at = op->opens.Flink; at && at != &op->opens; at = at->Flink) {
        const OPEN_REPARSE_LIST_ENTRY *one = CONTAINING_RECORD(at, OPEN_REPARSE_LIST_ENTRY, OpenReparseListEntry);
        if (one->ReparseTag == point->ReparseTag && (IsReparseTagMicrosoft(one->ReparseTag) || memcmp(&one->ReparseGuid, guid_of(point), sizeof one->ReparseGuid) == 0))
            return true;
    }
    return false;
}

/* A directory above it. */
static bool meets_above(KzOp *op, const KzName *name)
{
    char above[KZ_PATH];
    for (const char *slash = strchr(name->text, '/'); slash; slash = strchr(slash + 1, '/')) {
        snprintf(above, sizeof above, "%.*s", (int)(slash - name->text), name->text);
        const KzBytes *point = seen_point(op, kz_find_name(name->volume, above));
        if (point && !is_to_open(op, (const void *)point->bytes))
            return meet(op, point, strlen(slash));
    }
    return false;
}

bool kz_meets_tag(KzOp *op, uint8_t mode)
{
    const KzName *name = op->file->name;
    bool is_link_itself = op->create.options & FILE_OPEN_REPARSE_POINT || mode == 1;
    if (meets_above(op, name))
        return true;
    const KzBytes *point = is_link_itself ? NULL : seen_point(op, name);
    return point && !is_to_open(op, (const void *)point->bytes) && meet(op, point, 0);
}

/* ---- Where the system goes on. */
static void put_rest(const KzOp *op, char *name, size_t size)
{
    const char *text = op->file->name->text;
    size_t rest = op->tag->UnparsedNameLength / sizeof(WCHAR), length = strlen(name);
    snprintf(name + length, size - length, "%s", text + strlen(text) - rest);
}

/* A relative target begins where the link itself is. */
static void put_folder(const KzOp *op, char *name, size_t size)
{
    const char *text = op->file->name->text;
    size_t length = strlen(text) - op->tag->UnparsedNameLength / sizeof(WCHAR);
    while (length && text[length - 1] != '/')
        length--;
    snprintf(name, size, "/Device/%s/%.*s", op->volume->name, (int)length, text);
}

bool kz_target_of(const KzOp *op, char *name, size_t size)
{
    const FLT_TAG_DATA_BUFFER *tag = op->tag;
    if (!is_followed(tag->FileTag))
        return false;
    const uint8_t *names = tag->GenericReparseBuffer.DataBuffer + names_in(tag->FileTag);
    USHORT length = tag->SymbolicLinkReparseBuffer.SubstituteNameLength;
    UNICODE_STRING target = {length, length, (PWSTR)(names + tag->SymbolicLinkReparseBuffer.SubstituteNameOffset)};
    *name = 0;
    if (tag->FileTag == IO_REPARSE_TAG_SYMLINK && tag->SymbolicLinkReparseBuffer.Flags & SYMLINK_FLAG_RELATIVE)
        put_folder(op, name, size);
    kz_narrow(name + strlen(name), size - strlen(name), &target);
    put_rest(op, name, size);
    return true;
}
