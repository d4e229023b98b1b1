/* What a cache has read and written, and who asks for that. */
#ifndef KZ_CACHE_PAGING_H
#define KZ_CACHE_PAGING_H

#include "host.h"
#include "cache/cache.h"

/* What IoGetTopLevelIrp answers meanwhile: a request that the file system is in, or one without an IRP, or none but the cache's own. */
#define KZ_TOP_REQUEST ((PIRP)(ULONG_PTR)0xffff8000)
#define KZ_TOP_FAST ((PIRP)(ULONG_PTR)FSRTL_FAST_IO_TOP_LEVEL_IRP)

/* Those of a range that aren't there, by whoever runs. */
NTSTATUS kz_bring_pages(KzCache *cache, uint64_t first, uint64_t end, PIRP top);
/* What was changed of a range; with no length of all. */
NTSTATUS kz_flush_cache(KzCache *cache, uint64_t from, uint64_t length);
/* Pages of a range go, with what was changed of them; false: some are in use. `ends`: no handle caches any more. */
bool kz_purge_cache(KzCache *cache, uint64_t from, uint64_t length, bool ends);
/* The modified page writer's turn: what was changed in views. */
void kz_write_modified(KzCache *cache);
/* The lazy writer's turn: all that is dirty, or what is due. */
void kz_write_lazily(bool is_all);
/* Of a volume that goes, or of all at the end of a run: what can't be written is lost, and said. */
void kz_end_caches(PFLT_VOLUME volume);
/* It isn't needed any more, if nothing of it is to be written. */
void kz_end_idle_cache(KzCache *cache);

/* ---- Bytes of a stream, by its pages. */
NTSTATUS kz_read_pages(KzCache *cache, uint64_t offset, uint8_t *to, size_t length, PIRP top);
NTSTATUS kz_write_pages(KzCache *cache, uint64_t offset, const uint8_t *from, size_t length, PIRP top);
/* What lies between the end of the valid data and that offset is zeros, which are to be written. */
NTSTATUS kz_zero_pages(KzCache *cache, uint64_t offset, PIRP top);

#endif
