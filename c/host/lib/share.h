/* Share access: what the open file objects of a file may do, and what they let others do. In a header, since the file system counts its own beside those of a driver. */
#ifndef KZ_LIB_SHARE_H
#define KZ_LIB_SHARE_H

#include "host.h"

/* What a file object was granted, and what it shares. One that neither reads, writes nor deletes shares nothing, and counts nowhere. */
static inline void kz_grant(PFILE_OBJECT object, ACCESS_MASK access, ULONG share)
{
    object->ReadAccess = (access & (FILE_READ_DATA | FILE_EXECUTE)) != 0;
    object->WriteAccess = (access & (FILE_WRITE_DATA | FILE_APPEND_DATA)) != 0;
    object->DeleteAccess = (access & DELETE) != 0;
    bool counts = object->ReadAccess || object->WriteAccess || object->DeleteAccess;
    object->SharedRead = counts && share & FILE_SHARE_READ;
    object->SharedWrite = counts && share & FILE_SHARE_WRITE;
    object->SharedDelete = counts && share & FILE_SHARE_DELETE;
}

/* One more, or one less. */
static inline void kz_count_share(const FILE_OBJECT *object, PSHARE_ACCESS all, LONG by)
{
    if (!object->ReadAccess && !object->WriteAccess && !object->DeleteAccess)
        return;
    all->OpenCount += (ULONG)by;
    all->Readers += (ULONG)(object->ReadAccess * by);
    all->Writers += (ULONG)(object->WriteAccess * by);
    all->Deleters += (ULONG)(object->DeleteAccess * by);
    all->SharedRead += (ULONG)(object->SharedRead * by);
    all->SharedWrite += (ULONG)(object->SharedWrite * by);
    all->SharedDelete += (ULONG)(object->SharedDelete * by);
}

/* Each access is shared by all others, and each that others have is shared by it; so it is of one that has none. */
static inline bool kz_may_share(const FILE_OBJECT *object, const SHARE_ACCESS *all)
{
    if (!object->ReadAccess && !object->WriteAccess && !object->DeleteAccess)
        return true;
    return (!object->ReadAccess || all->SharedRead == all->OpenCount) && (!object->WriteAccess || all->SharedWrite == all->OpenCount) &&
           (!object->DeleteAccess || all->SharedDelete == all->OpenCount) && (!all->Readers || object->SharedRead) && (!all->Writers || object->SharedWrite) &&
           (!all->Deleters || object->SharedDelete);
}

#endif
