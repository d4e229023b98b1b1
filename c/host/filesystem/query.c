/* What the file system knows of a file, by the kit's classes. */
#include "filesystem/query.h"

#include "lib/letters.h"
#include "filesystem/deletion.h"
#include "filesystem/name.h"
#include "filesystem/record.h"
#include "filesystem/tag.h"
#include "filesystem/tree.h"
#include "filesystem/version.h"

/* The fields that several classes have. What lies between two fields is zeros. */
/* What is left of its create's options, as its file object has it. */
static ULONG mode_of(const KzFile *file)
{
    static const ULONG all[][2] = {{FO_WRITE_THROUGH, FILE_WRITE_THROUGH},
                                   {FO_SEQUENTIAL_ONLY, FILE_SEQUENTIAL_ONLY},
                                   {FO_NO_INTERMEDIATE_BUFFERING, FILE_NO_INTERMEDIATE_BUFFERING}};
    ULONG flags = file->object.Flags, wait = flags & FO_ALERTABLE_IO ? FILE_SYNCHRONOUS_IO_ALERT : FILE_SYNCHRONOUS_IO_NONALERT;
    ULONG mode = flags & FO_SYNCHRONOUS_IO ? wait : 0;
    for (size_t at = 0; at < sizeof all / sizeof all[0]; at++)
        if (flags & all[at][0])
            mode |= all[at][1];
    return mode;
}

static void show_basic(const KzFacts *facts, FILE_BASIC_INFORMATION *to)
{
    memset(to, 0, sizeof *to);
    to->CreationTime.QuadPart = facts->created;
    to->LastAccessTime.QuadPart = facts->accessed;
    to->LastWriteTime.QuadPart = facts->written;
    to->ChangeTime.QuadPart = facts->changed;
    to->FileAttributes = facts->attributes;
}

static bool has_bytes(const KzStream *stream)
{
    return !stream->file->is_directory || *stream->name;
}

static uint64_t allocation_of(const KzStream *stream, const KzFacts *facts)
{
    uint64_t size = facts->allocation > facts->size ? facts->allocation : facts->size;
    return has_bytes(stream) ? kz_allocated(stream->file->volume, size) : 0;
}

uint64_t kz_allocation_of(const KzStream *stream)
{
    return allocation_of(stream, &(KzFacts){.size = stream->size, .allocation = stream->allocation});
}

static LONGLONG size_of(const KzStream *stream, const KzFacts *facts)
{
    return has_bytes(stream) ? (LONGLONG)facts->size : 0;
}

void kz_show_standard(const KzFile *file, FILE_STANDARD_INFORMATION *to)
{
    const KzName *name = file->name;
    const KzRecord *record = name->file;
    const KzFacts facts = kz_facts_of(name->stream, file->transaction);
    bool is_marked = kz_is_marked_for(name, file->transaction);
    memset(to, 0, sizeof *to);
    to->AllocationSize.QuadPart = (LONGLONG)allocation_of(name->stream, &facts);
    to->EndOfFile.QuadPart = size_of(name->stream, &facts);
    to->NumberOfLinks = record->links - (record->marked && is_marked && record->links > 0);
    to->DeletePending = is_marked || !record->links;
    to->Directory = kz_is_directory(name);
}

/* The size is the manager's. */
void kz_show_size(const KzFile *file, uint64_t size, FILE_STANDARD_INFORMATION *to)
{
    memset(to, 0, sizeof *to);
    to->NumberOfLinks = 1;
    if (file->name)
        kz_show_standard(file, to);
    to->EndOfFile.QuadPart = (LONGLONG)size;
    if (!file->name || to->AllocationSize.QuadPart < (LONGLONG)size)
        to->AllocationSize.QuadPart = (LONGLONG)kz_allocated(file->volume, size);
}

void kz_show_network(const KzStream *stream, PKTRANSACTION from, FILE_NETWORK_OPEN_INFORMATION *to)
{
    const KzFacts facts = kz_facts_of(stream, from);
    memset(to, 0, sizeof *to);
    to->CreationTime.QuadPart = facts.created;
    to->LastAccessTime.QuadPart = facts.accessed;
    to->LastWriteTime.QuadPart = facts.written;
    to->ChangeTime.QuadPart = facts.changed;
    to->AllocationSize.QuadPart = (LONGLONG)allocation_of(stream, &facts);
    to->EndOfFile.QuadPart = size_of(stream, &facts);
    to->FileAttributes = facts.attributes;
}

/* As much as there is room for; the status says whether that is all. */
NTSTATUS kz_put_answer(const KzRoom *room, const void *bytes, size_t size, size_t least)
{
    if (room->size < least)
        return STATUS_INFO_LENGTH_MISMATCH;
    size_t fits = size < room->size ? size : room->size;
    memcpy(room->bytes, bytes, fits);
    *room->used = fits;
    return size <= room->size ? STATUS_SUCCESS : STATUS_BUFFER_OVERFLOW;
}

/* ---- Names. That below the volume, with the backslash in front of it. */
static ULONG wide_name(const KzFile *file, WCHAR *room)
{
    char text[KZ_WHOLE_PATH];
    snprintf(text, sizeof text, "/%s", kz_name_now(file));
    return kz_widen(room, text);
}

static NTSTATUS query_name(const KzFile *file, const KzRoom *room)
{
    struct {
        ULONG length;
        WCHAR name[KZ_WHOLE_PATH];
    } name;
    name.length = wide_name(file, name.name);
    return kz_put_answer(room, &name, offsetof(FILE_NAME_INFORMATION, FileName) + name.length, sizeof(FILE_NAME_INFORMATION));
}

static NTSTATUS query_all(const KzFile *file, const KzRoom *room)
{
    union {
        FILE_ALL_INFORMATION all;
        uint8_t bytes[sizeof(FILE_ALL_INFORMATION) + sizeof(WCHAR) * KZ_WHOLE_PATH];
    } said;
    const KzRecord *record = file->name->file;
    WCHAR name[KZ_WHOLE_PATH];
    memset(&said, 0, sizeof said);
    const KzFacts facts = kz_facts_of(file->name->stream, file->transaction);
    show_basic(&facts, &said.all.BasicInformation);
    kz_show_standard(file, &said.all.StandardInformation);
    said.all.InternalInformation.IndexNumber.QuadPart = (LONGLONG)record->id;
    said.all.EaInformation.EaSize = (ULONG)kz_beside_of(record, file->transaction)->ea.length;
    said.all.AccessInformation.AccessFlags = file->access;
    said.all.PositionInformation.CurrentByteOffset = file->object.CurrentByteOffset;
    said.all.ModeInformation.Mode = mode_of(file);
    said.all.NameInformation.FileNameLength = wide_name(file, name);
    memcpy(said.bytes + offsetof(FILE_ALL_INFORMATION, NameInformation.FileName), name, said.all.NameInformation.FileNameLength);
    return kz_put_answer(room, &said, offsetof(FILE_ALL_INFORMATION, NameInformation.FileName) + said.all.NameInformation.FileNameLength, sizeof said.all);
}

/* ---- The streams of a file: its own bytes first, then those that have a name. */
typedef struct {
    const KzRoom *room;
    PFILE_STREAM_INFORMATION before;
    size_t place;
} Streams;

static bool put_stream(Streams *streams, const KzStream *stream, const KzFacts *facts)
{
    WCHAR wide[KZ_WHOLE_PATH];
    char text[KZ_WHOLE_PATH];
    snprintf(text, sizeof text, ":%s:$DATA", stream->name);
    ULONG length = kz_widen(wide, text);
    size_t size = offsetof(FILE_STREAM_INFORMATION, StreamName) + length;
    if (streams->place + size > streams->room->size)
        return false;
    PFILE_STREAM_INFORMATION entry = (PFILE_STREAM_INFORMATION)(streams->room->bytes + streams->place);
    FILE_STREAM_INFORMATION head = {.StreamNameLength = length, .StreamSize.QuadPart = (LONGLONG)facts->size, .StreamAllocationSize.QuadPart = (LONGLONG)allocation_of(stream, facts)};
    memcpy(entry, &head, offsetof(FILE_STREAM_INFORMATION, StreamName));
    memcpy(entry->StreamName, wide, length);
    if (streams->before)
        streams->before->NextEntryOffset = (ULONG)((uint8_t *)entry - (uint8_t *)streams->before);
    streams->before = entry;
    *streams->room->used = streams->place + size;
    streams->place = (streams->place + size + 7) & ~(size_t)7;
    return true;
}

static NTSTATUS query_streams(const KzFile *file, const KzRoom *room)
{
    Streams streams = {.room = room};
    for (const KzStream *one = file->name->file->streams; one; one = one->next) {
        const KzFacts facts = kz_facts_of(one, file->transaction);
        if (one->exists && facts.pages && has_bytes(one) && !put_stream(&streams, one, &facts))
            return STATUS_BUFFER_OVERFLOW;
    }
    return STATUS_SUCCESS;
}

/* Classes of one size, which are made in zeroed memory. */
typedef union {
    FILE_BASIC_INFORMATION basic;
    FILE_STANDARD_INFORMATION standard;
    FILE_NETWORK_OPEN_INFORMATION network;
    FILE_INTERNAL_INFORMATION internal;
    FILE_EA_INFORMATION ea;
    FILE_ACCESS_INFORMATION access;
    FILE_POSITION_INFORMATION position;
    FILE_MODE_INFORMATION mode;
    FILE_ALIGNMENT_INFORMATION alignment;
    FILE_ATTRIBUTE_TAG_INFORMATION tag;
    FILE_ID_INFORMATION id;
} Fixed;

/* How large it is; 0: it is none of these. */
static size_t show_fixed(const KzFile *file, int class, Fixed *said)
{
    const KzRecord *record = file->name->file;
    const KzFacts facts = kz_facts_of(file->name->stream, file->transaction);
    memset(said, 0, sizeof *said);
    switch (class) {
    case FileBasicInformation:
        show_basic(&facts, &said->basic);
        return sizeof said->basic;
    case FileStandardInformation:
        kz_show_standard(file, &said->standard);
        return sizeof said->standard;
    case FileNetworkOpenInformation:
        kz_show_network(file->name->stream, file->transaction, &said->network);
        return sizeof said->network;
    case FileInternalInformation:
        said->internal.IndexNumber.QuadPart = (LONGLONG)record->id;
        return sizeof said->internal;
    case FileEaInformation:
        said->ea.EaSize = (ULONG)kz_beside_of(record, file->transaction)->ea.length;
        return sizeof said->ea;
    case FileAccessInformation:
        said->access.AccessFlags = file->access;
        return sizeof said->access;
    case FilePositionInformation:
        said->position.CurrentByteOffset = file->object.CurrentByteOffset;
        return sizeof said->position;
    case FileModeInformation:
        said->mode.Mode = mode_of(file);
        return sizeof said->mode;
    case FileAlignmentInformation:
        return sizeof said->alignment;
    case FileAttributeTagInformation:
        said->tag.FileAttributes = facts.attributes;
        said->tag.ReparseTag = kz_tag_of(record);
        return sizeof said->tag;
    case FileIdInformation:
        said->id.VolumeSerialNumber = record->volume->id + 1u;
        memcpy(said->id.FileId.Identifier, &record->id, sizeof record->id);
        return sizeof said->id;
    default:
        return 0;
    }
}

NTSTATUS kz_query_file(const KzFile *file, int class, const KzRoom *room)
{
    Fixed said;
    size_t size = show_fixed(file, class, &said);
    if (size)
        return kz_put_answer(room, &said, size, size);
    switch (class) {
    case FileNameInformation:
    case FileNormalizedNameInformation:
        return query_name(file, room);
    case FileAllInformation:
        return query_all(file, room);
    case FileStreamInformation:
        return query_streams(file, room);
    default:
        return STATUS_INVALID_INFO_CLASS;
    }
}
