/* The calls of the cache manager and the memory manager on files that the file system caches. Those of a filter's own file objects are in unmodelled.c. */
#include "cache/paging.h"
#include "core/client.h"
#include "kit/section.h"

BOOLEAN CcIsFileCached(PFILE_OBJECT FileObject)
{
    KZ_CALL();
    return FileObject->SectionObjectPointer && FileObject->SectionObjectPointer->SharedCacheMap;
}

/* No volume has a paging file. */
LOGICAL FsRtlIsPagingFile(PFILE_OBJECT FileObject)
{
    (void)FileObject;
    return FALSE;
}

/* Whether no section has something of what would be cut off; with no size, whether none has anything. An image isn't cut at all. */
BOOLEAN MmCanFileBeTruncated(PSECTION_OBJECT_POINTERS SectionPointer, PLARGE_INTEGER NewFileSize)
{
    KZ_CALL();
    uint64_t size = NewFileSize ? (uint64_t)NewFileSize->QuadPart : 0;
    const KzCache *cache = kz_cache_with(SectionPointer);
    return !SectionPointer->ImageSectionObject && !(cache && kz_is_viewed(cache, size)) && !kz_has_section_past(SectionPointer, size);
}

/* No image is mapped. */
BOOLEAN MmFlushImageSection(PSECTION_OBJECT_POINTERS SectionObjectPointer, ULONG FlushType)
{
    KZ_INSIDE_ALONE();
    (void)FlushType;
    return SectionObjectPointer->ImageSectionObject == NULL;
}

/* With no offset it is about all of the file. */
static uint64_t from_of(const LARGE_INTEGER *offset)
{
    return offset ? (uint64_t)offset->QuadPart : 0;
}

VOID CcFlushCache(PSECTION_OBJECT_POINTERS SectionObjectPointer, PLARGE_INTEGER FileOffset, ULONG Length, PIO_STATUS_BLOCK IoStatus)
{
    KZ_CALL();
    KzCache *cache = kz_cache_with(SectionObjectPointer);
    NTSTATUS status = cache ? kz_flush_cache(cache, from_of(FileOffset), FileOffset ? Length : 0) : STATUS_SUCCESS;
    if (IoStatus)
        *IoStatus = (IO_STATUS_BLOCK){.Status = status};
}

BOOLEAN CcPurgeCacheSection(PSECTION_OBJECT_POINTERS SectionObjectPointer, PLARGE_INTEGER FileOffset, ULONG Length, ULONG UninitializeCacheMaps)
{
    KZ_CALL();
    KzCache *cache = kz_cache_with(SectionObjectPointer);
    return !cache || kz_purge_cache(cache, from_of(FileOffset), FileOffset ? Length : 0, UninitializeCacheMaps != 0);
}
