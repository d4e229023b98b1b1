/* Control codes that ask for a file's bytes, its object ID, its journal's record, or what its volume is made of. */
#include "filesystem/fsctl.h"

#include "core/op.h"
#include "filesystem/journal.h"
#include "filesystem/name.h"
#include "filesystem/record.h"
#include "filesystem/stream.h"
#include "filesystem/volumes.h"
#include "lib/letters.h"

/* What goes in, and what comes out: two buffers where the code's method is METHOD_NEITHER, and else one. */
typedef struct {
    const void *in;
    void *out;
    ULONG in_length, out_length;
} Buffers;

static Buffers buffers_of(const FLT_PARAMETERS *now)
{
    bool is_neither = METHOD_FROM_CTL_CODE(now->FileSystemControl.Common.FsControlCode) == METHOD_NEITHER;
    return (Buffers){.in = is_neither ? now->FileSystemControl.Neither.InputBuffer : now->FileSystemControl.Buffered.SystemBuffer,
                     .out = is_neither ? now->FileSystemControl.Neither.OutputBuffer : now->FileSystemControl.Buffered.SystemBuffer,
                     .in_length = now->FileSystemControl.Common.InputBufferLength,
                     .out_length = now->FileSystemControl.Common.OutputBufferLength};
}

static NTSTATUS give(KzOp *op, const Buffers *to, const void *bytes, size_t size)
{
    if (to->out_length < size)
        return STATUS_BUFFER_TOO_SMALL;
    memcpy(to->out, bytes, op->opaque->information = size);
    return STATUS_SUCCESS;
}

/* ---- Bytes. */
static NTSTATUS set_zeros(KzOp *op, const Buffers *said)
{
    static const uint8_t zeros[4096];
    const FILE_ZERO_DATA_INFORMATION *range = said->in;
    if (said->in_length < sizeof *range || range->FileOffset.QuadPart < 0 || range->BeyondFinalZero.QuadPart < range->FileOffset.QuadPart)
        return STATUS_INVALID_PARAMETER;
    uint64_t size = op->file->name->stream->size, at = (uint64_t)range->FileOffset.QuadPart, end = (uint64_t)range->BeyondFinalZero.QuadPart;
    NTSTATUS status = STATUS_SUCCESS;
    for (end = end < size ? end : size; at < end && NT_SUCCESS(status);) {
        size_t part = end - at < sizeof zeros ? end - at : sizeof zeros;
        status = kz_write_stream(op->file, at, zeros, part);
        at += part;
    }
    return status;
}

/* A file here has no holes: what lies before its end is one range. */
static NTSTATUS query_ranges(KzOp *op, const Buffers *said)
{
    const FILE_ALLOCATED_RANGE_BUFFER *asked = said->in;
    if (said->in_length < sizeof *asked || asked->FileOffset.QuadPart < 0 || asked->Length.QuadPart < 0)
        return STATUS_INVALID_PARAMETER;
    LONGLONG size = (LONGLONG)op->file->name->stream->size, begin = asked->FileOffset.QuadPart, length = asked->Length.QuadPart;
    if (begin >= size || !length)
        return STATUS_SUCCESS;
    FILE_ALLOCATED_RANGE_BUFFER range = {.FileOffset.QuadPart = begin, .Length.QuadPart = length < size - begin ? length : size - begin};
    return give(op, said, &range, sizeof range);
}

static NTSTATUS set_sparse(KzOp *op, const Buffers *said)
{
    KzRecord *record = op->file->name->file;
    const FILE_SET_SPARSE_BUFFER *asked = said->in;
    bool is_sparse = said->in_length < sizeof *asked || asked->SetSparse;
    if (kz_is_directory(op->file->name))
        return STATUS_INVALID_PARAMETER;
    record->attributes &= ~(ULONG)(FILE_ATTRIBUTE_SPARSE_FILE | FILE_ATTRIBUTE_NORMAL);
    record->attributes |= is_sparse ? FILE_ATTRIBUTE_SPARSE_FILE : record->attributes ? 0 : FILE_ATTRIBUTE_NORMAL;
    return STATUS_SUCCESS;
}

/* ---- Object IDs: one that is asked for is made of the file's number. */
static NTSTATUS get_object_id(KzOp *op, const Buffers *to, bool is_made)
{
    KzRecord *record = op->file->name->file;
    FILE_OBJECTID_BUFFER fresh = {0};
    if (!record->object_id.length && !is_made)
        return STATUS_OBJECTID_NOT_FOUND;
    if (!record->object_id.length) {
        memcpy(fresh.ObjectId, &record->id, sizeof record->id);
        fresh.ObjectId[15] = (UCHAR)(record->volume->id + 1);
        kz_keep_bytes(&record->object_id, &fresh, sizeof fresh);
    }
    return give(op, to, record->object_id.bytes, sizeof fresh);
}

static NTSTATUS set_object_id(KzOp *op, const Buffers *said)
{
    KzRecord *record = op->file->name->file;
    if (said->in_length != sizeof(FILE_OBJECTID_BUFFER))
        return STATUS_INVALID_PARAMETER;
    if (record->object_id.length)
        return STATUS_OBJECT_NAME_COLLISION;
    kz_keep_bytes(&record->object_id, said->in, said->in_length);
    return STATUS_SUCCESS;
}

static NTSTATUS delete_object_id(KzOp *op)
{
    kz_keep_bytes(&op->file->name->file->object_id, NULL, 0);
    return STATUS_SUCCESS;
}

/* ---- The journal. */
static NTSTATUS read_journal(KzOp *op, const Buffers *said)
{
    size_t length = 0;
    if (said->in_length < sizeof(READ_USN_JOURNAL_DATA_V0))
        return STATUS_INVALID_PARAMETER;
    NTSTATUS status = kz_read_journal(op->volume, said->in, said->out, said->out_length, &length);
    op->opaque->information = NT_SUCCESS(status) ? length : 0;
    return status;
}

static NTSTATUS list_records(KzOp *op, const Buffers *said)
{
    size_t length = 0;
    if (said->in_length < sizeof(MFT_ENUM_DATA_V0))
        return STATUS_INVALID_PARAMETER;
    NTSTATUS status = kz_list_records(op->volume, said->in, said->out, said->out_length, &length);
    op->opaque->information = NT_SUCCESS(status) ? length : 0;
    return status;
}

static NTSTATUS query_journal(KzOp *op, const Buffers *to)
{
    USN_JOURNAL_DATA_V0 said;
    kz_query_journal(op->volume, &said);
    return give(op, to, &said, sizeof said);
}

static NTSTATUS read_record(KzOp *op, const Buffers *to)
{
    uint8_t room[1024];
    size_t length = kz_journal_record(op->file->name, room);
    return give(op, to, room, length);
}

static NTSTATUS close_record(KzOp *op, const Buffers *to)
{
    const KzName *name = op->file->name;
    kz_write_close_record(name);
    return give(op, to, &name->file->usn, sizeof name->file->usn);
}

static NTSTATUS volume_data(KzOp *op, const Buffers *to)
{
    PFLT_VOLUME volume = op->volume;
    NTFS_VOLUME_DATA_BUFFER data = {.VolumeSerialNumber.QuadPart = volume->id + 1, .BytesPerSector = volume->sector, .BytesPerCluster = volume->sector, .BytesPerFileRecordSegment = 1024};
    data.NumberSectors.QuadPart = data.TotalClusters.QuadPart = kz_units();
    data.FreeClusters.QuadPart = kz_free_units(volume);
    return volume->type == FLT_FSTYPE_NTFS ? give(op, to, &data, sizeof data) : STATUS_INVALID_DEVICE_REQUEST;
}

NTSTATUS kz_control_file(KzOp *op, const FLT_PARAMETERS *now)
{
    const Buffers buffers = buffers_of(now);
    ULONG code = now->FileSystemControl.Common.FsControlCode;
    if (code == FSCTL_GET_NTFS_VOLUME_DATA)
        return volume_data(op, &buffers);
    if (code == FSCTL_QUERY_USN_JOURNAL && op->volume->type == FLT_FSTYPE_NTFS)
        return query_journal(op, &buffers);
    if (code == FSCTL_ENUM_USN_DATA && op->volume->type == FLT_FSTYPE_NTFS)
        return list_records(op, &buffers);
    if (code == FSCTL_READ_USN_JOURNAL && op->volume->type == FLT_FSTYPE_NTFS)
        return read_journal(op, &buffers);
    if (!op->file->name)
        return STATUS_INVALID_PARAMETER;
    switch (code) {
    case FSCTL_SET_ZERO_DATA:
        return set_zeros(op, &buffers);
    case FSCTL_QUERY_ALLOCATED_RANGES:
        return query_ranges(op, &buffers);
    case FSCTL_SET_SPARSE:
        return set_sparse(op, &buffers);
    case FSCTL_GET_OBJECT_ID:
    case FSCTL_CREATE_OR_GET_OBJECT_ID:
        return get_object_id(op, &buffers, code == FSCTL_CREATE_OR_GET_OBJECT_ID);
    case FSCTL_SET_OBJECT_ID:
        return set_object_id(op, &buffers);
    case FSCTL_DELETE_OBJECT_ID:
        return delete_object_id(op);
    case FSCTL_READ_FILE_USN_DATA:
        return read_record(op, &buffers);
    case FSCTL_WRITE_USN_CLOSE_RECORD:
        return op->volume->type == FLT_FSTYPE_NTFS ? close_record(op, &buffers) : STATUS_INVALID_DEVICE_REQUEST;
    default:
        return STATUS_INVALID_DEVICE_REQUEST;
    }
}
