/* What the file system is told of a file, by the kit's classes. */
#include "filesystem/set.h"

#include "core/module.h"
#include "core/op.h"
#include "filesystem/deletion.h"
#include "filesystem/fileobject.h"
#include "filesystem/journal.h"
#include "filesystem/name.h"
#include "filesystem/notice.h"
#include "filesystem/query.h"
#include "filesystem/rename.h"
#include "filesystem/stream.h"
#include "filesystem/tree.h"

NTSTATUS kz_answer_query(KzOp *op, const FLT_PARAMETERS *now)
{
    const KzRoom room = {now->QueryFileInformation.InfoBuffer, now->QueryFileInformation.Length, &op->opaque->information};
    if (!op->file->name)
        return STATUS_INVALID_PARAMETER;
    kz_is_there(op->file->name);
    return kz_query_file(op->file, now->QueryFileInformation.FileInformationClass, &room);
}

/* What a file is stays, whatever is said; it is normal if nothing else is said of it. */
static void set_attributes(KzRecord *record, ULONG said)
{
    const ULONG kinds = FILE_ATTRIBUTE_DIRECTORY | FILE_ATTRIBUTE_REPARSE_POINT | FILE_ATTRIBUTE_SPARSE_FILE | FILE_ATTRIBUTE_COMPRESSED | FILE_ATTRIBUTE_ENCRYPTED;
    record->attributes = (record->attributes & kinds) | (said & ~(kinds | FILE_ATTRIBUTE_NORMAL));
    record->attributes |= record->attributes ? 0 : FILE_ATTRIBUTE_NORMAL;
}

/* A time of 0 or less stays, and so do attributes of 0. */
static NTSTATUS set_basic(KzName *name, const FILE_BASIC_INFORMATION *said)
{
    KzRecord *record = name->file;
    const struct {
        LONGLONG said, *kept;
    } times[] = {{said->CreationTime.QuadPart, &record->created},
                 {said->LastAccessTime.QuadPart, &record->accessed},
                 {said->LastWriteTime.QuadPart, &record->written},
                 {said->ChangeTime.QuadPart, &record->changed}};
    if (said->FileAttributes & (record->is_directory ? FILE_ATTRIBUTE_TEMPORARY : FILE_ATTRIBUTE_DIRECTORY))
        return STATUS_INVALID_PARAMETER;
    for (size_t at = 0; at < sizeof times / sizeof times[0]; at++)
        if (times[at].said > 0)
            *times[at].kept = times[at].said;
    if (said->FileAttributes)
        set_attributes(record, said->FileAttributes);
    kz_changed(name->base ? name->base : name, FILE_NOTIFY_CHANGE_ATTRIBUTES, FILE_ACTION_MODIFIED);
    return STATUS_SUCCESS;
}

/* A rename or a link; in the extended classes the first field has flags. */
static NTSTATUS set_name(KzFile *file, const FLT_PARAMETERS *now, bool is_link, bool is_extended)
{
    char text[KZ_WHOLE_PATH];
    const FILE_RENAME_INFORMATION *said = now->SetFileInformation.InfoBuffer;
    size_t head = offsetof(FILE_RENAME_INFORMATION, FileName);
    if (now->SetFileInformation.Length < head || now->SetFileInformation.Length - head < said->FileNameLength)
        return STATUS_INFO_LENGTH_MISMATCH;
    bool is_right = now->SetFileInformation.ParentOfTarget ? kz_name_in_target(kz_file_with(now->SetFileInformation.ParentOfTarget), text, sizeof text)
                                                           : kz_destination(file, said->RootDirectory, said->FileName, said->FileNameLength, text, sizeof text);
    if (!is_right)
        return STATUS_OBJECT_NAME_INVALID;
    return kz_rename(file, text, is_link, is_extended ? said->Flags : said->ReplaceIfExists ? FILE_RENAME_REPLACE_IF_EXISTS : 0);
}

static NTSTATUS set_end(KzOp *op, LONGLONG size)
{
    KzFile *file = op->file;
    if (size < 0 || kz_is_directory(file->name))
        return STATUS_INVALID_PARAMETER;
    return kz_is_mapped(op, file->name->stream, (uint64_t)size) ? STATUS_USER_MAPPED_FILE : kz_resize(file, (uint64_t)size);
}

static NTSTATUS set_allocation(KzOp *op, LONGLONG size)
{
    KzFile *file = op->file;
    KzStream *stream = file->name->stream;
    if (size < 0 || kz_is_directory(file->name))
        return STATUS_INVALID_PARAMETER;
    if ((uint64_t)size < stream->size && kz_is_mapped(op, stream, (uint64_t)size))
        return STATUS_USER_MAPPED_FILE;
    stream->allocation = (uint64_t)size;
    return (uint64_t)size < stream->size ? kz_resize(file, (uint64_t)size) : STATUS_SUCCESS;
}

/* It never becomes less. */
static NTSTATUS set_valid(KzStream *stream, uint64_t length)
{
    if (length > stream->size)
        return STATUS_INVALID_PARAMETER;
    stream->valid = length > stream->valid ? length : stream->valid;
    return STATUS_SUCCESS;
}

static NTSTATUS set_position(KzFile *file, LARGE_INTEGER place)
{
    file->object.CurrentByteOffset = place;
    return STATUS_SUCCESS;
}

static size_t least_of(int class)
{
    switch (class) {
    case FileBasicInformation:
        return sizeof(FILE_BASIC_INFORMATION);
    case FileDispositionInformation:
        return sizeof(FILE_DISPOSITION_INFORMATION);
    case FileDispositionInformationEx:
        return sizeof(FILE_DISPOSITION_INFORMATION_EX);
    case FileRenameInformation:
    case FileRenameInformationEx:
    case FileLinkInformation:
    case FileLinkInformationEx:
        return offsetof(FILE_RENAME_INFORMATION, FileName);
    default:
        return sizeof(LARGE_INTEGER);
    }
}

NTSTATUS kz_answer_set(KzOp *op, const FLT_PARAMETERS *now)
{
    KzFile *file = op->file;
    const void *said = now->SetFileInformation.InfoBuffer;
    int class = (int)now->SetFileInformation.FileInformationClass;
    if (!file->name)
        return STATUS_INVALID_PARAMETER;
    if (now->SetFileInformation.Length < least_of(class))
        return STATUS_INFO_LENGTH_MISMATCH;
    kz_is_there(file->name);
    switch (class) {
    case FileBasicInformation:
        return set_basic(file->name, said);
    case FileRenameInformation:
    case FileLinkInformation:
        return set_name(file, now, class == FileLinkInformation, false);
    case FileRenameInformationEx:
    case FileLinkInformationEx:
        return set_name(file, now, class == FileLinkInformationEx, true);
    case FileAllocationInformation:
        return set_allocation(op, ((const FILE_ALLOCATION_INFORMATION *)said)->AllocationSize.QuadPart);
    case FileEndOfFileInformation:
        return now->SetFileInformation.AdvanceOnly ? STATUS_SUCCESS : set_end(op, ((const FILE_END_OF_FILE_INFORMATION *)said)->EndOfFile.QuadPart);
    case FileValidDataLengthInformation:
        return set_valid(file->name->stream, (uint64_t)((const FILE_VALID_DATA_LENGTH_INFORMATION *)said)->ValidDataLength.QuadPart);
    case FileDispositionInformation:
        return kz_dispose(file, ((const FILE_DISPOSITION_INFORMATION *)said)->DeleteFile ? FILE_DISPOSITION_DELETE : 0);
    case FileDispositionInformationEx:
        return kz_dispose(file, ((const FILE_DISPOSITION_INFORMATION_EX *)said)->Flags);
    case FilePositionInformation:
        return set_position(file, ((const FILE_POSITION_INFORMATION *)said)->CurrentByteOffset);
    default:
        return STATUS_INVALID_INFO_CLASS;
    }
}
