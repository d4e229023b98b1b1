/* A driver tags a file, and takes its tag off: by the file system's control codes, which those below it hear. */
#include "core/client.h"
#include "core/memory.h"

#include <stdlib.h>

/* A reparse point as the control codes take it; its length, or 0 if it can't be one. */
static size_t put_point(void *to, ULONG tag, const GUID *guid, const void *data, USHORT length)
{
    PREPARSE_DATA_BUFFER plain = to;
    PREPARSE_GUID_DATA_BUFFER with_guid = to;
    bool is_plain = IsReparseTagMicrosoft(tag);
    size_t head = is_plain ? offsetof(REPARSE_DATA_BUFFER, GenericReparseBuffer) : offsetof(REPARSE_GUID_DATA_BUFFER, GenericReparseBuffer);
    if (head + length > MAXIMUM_REPARSE_DATA_BUFFER_SIZE || (!is_plain && !guid))
        return 0;
    *with_guid = (REPARSE_GUID_DATA_BUFFER){.ReparseTag = tag, .ReparseDataLength = length};
    if (!is_plain)
        with_guid->ReparseGuid = *guid;
    if (length)
        memcpy(is_plain ? plain->GenericReparseBuffer.DataBuffer : with_guid->GenericReparseBuffer.DataBuffer, data, length);
    return head + length;
}

static NTSTATUS control(PFLT_INSTANCE instance, PFILE_OBJECT object, ULONG code, PVOID input, size_t length)
{
    ULONG returned;
    return length ? FltFsControlFile(instance, object, code, input, (ULONG)length, NULL, 0, &returned) : STATUS_INVALID_PARAMETER;
}

NTSTATUS FltTagFile(PFLT_INSTANCE InitiatingInstance, PFILE_OBJECT FileObject, ULONG FileTag, GUID *Guid, PVOID DataBuffer, USHORT DataBufferLength)
{
    KZ_CALL();
    uint8_t *point = kz_memory(MAXIMUM_REPARSE_DATA_BUFFER_SIZE);
    size_t length = put_point(point, FileTag, Guid, DataBuffer, DataBufferLength);
    NTSTATUS status = control(InitiatingInstance, FileObject, FSCTL_SET_REPARSE_POINT, point, length);
    free(point);
    return status;
}

NTSTATUS FltTagFileEx(PFLT_INSTANCE InitiatingInstance, PFILE_OBJECT FileObject, ULONG FileTag, GUID *Guid, PVOID DataBuffer, USHORT DataBufferLength, ULONG ExistingFileTag,
                      GUID *ExistingGuid, ULONG Flags)
{
    KZ_CALL();
    const size_t head = offsetof(REPARSE_DATA_BUFFER_EX, ReparseDataBuffer);
    PREPARSE_DATA_BUFFER_EX point = kz_memory(head + MAXIMUM_REPARSE_DATA_BUFFER_SIZE);
    point->Flags = Flags;
    point->ExistingReparseTag = ExistingFileTag;
    if (ExistingGuid)
        point->ExistingReparseGuid = *ExistingGuid;
    size_t length = put_point(&point->ReparseDataBuffer, FileTag, Guid, DataBuffer, DataBufferLength);
    NTSTATUS status = control(InitiatingInstance, FileObject, FSCTL_SET_REPARSE_POINT_EX, point, length ? head + length : 0);
    free(point);
    return status;
}

NTSTATUS FltUntagFile(PFLT_INSTANCE InitiatingInstance, PFILE_OBJECT FileObject, ULONG FileTag, GUID *Guid)
{
    KZ_CALL();
    REPARSE_GUID_DATA_BUFFER point;
    size_t length = put_point(&point, FileTag, Guid, NULL, 0);
    return control(InitiatingInstance, FileObject, FSCTL_DELETE_REPARSE_POINT, &point, length);
}
