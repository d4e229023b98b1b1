/* The cache of a stream's pages: which are there, which were changed, and whose file object they are read and written by. */
#ifndef KZ_CACHE_CACHE_H
#define KZ_CACHE_CACHE_H

#include "host.h"
#include "core/client.h"
#include "filesystem/tree.h"

/* One paging read or write has up to a cluster of pages, as the lazy writer's have in the kit. */
enum { KZ_PAGE = 4096, KZ_CLUSTER = KZ_BYTES / KZ_PAGE, KZ_SEATS = 16 };

/* On its way in; as the file has it; changed. One that isn't there has no place. */
typedef enum { KZG_COMING, KZG_CLEAN, KZG_DIRTY } KzPageState;

typedef struct {
    uint64_t number;
    uint8_t *bytes;
    KzPageState state;
    bool is_going;  /* what it held is being written */
    bool is_by_view; /* it was changed by a view: the modified page writer's, not the lazy writer's */
    LONGLONG since; /* when it was changed first, or when that was written in vain */
} KzCachedPage;

/* Memory in which a program sees pages. */
typedef struct KzMapped {
    struct KzMapped *next;
    uint8_t *memory, *bytes;
    uint64_t first, count; /* pages */
    bool is_written;       /* what is changed there comes to the file */
    bool is_copy;          /* what is changed there is nobody else's, nor is it seen there what others change */
    const void *owner;     /* the process */
} KzMapped;

/* A section of a stream: its pages stay, and so does its file object. */
typedef struct KzArea {
    struct KzArea *next;
    struct KzCache *cache; /* NULL once that has ended */
    KzFile *file;
    uint64_t size;
    bool is_for_scan; /* who has it is asked to let it go, and isn't in the way as others are */
} KzArea;

typedef struct KzCache {
    struct KzCache *next;
    KzStream *stream;
    KzFile *holder;  /* the file object that cached first: paging I/O goes by it, after its cleanup too, and its close waits for the cache's end */
    KzCachedPage *pages; /* in the order of their numbers */
    size_t count, room;
    uint64_t told;   /* up to where the file system was told that something was written */
    KzMapped *mapped;
    KzArea *areas;
    unsigned views;  /* and sections */
    unsigned maps;   /* handles that cached, and whose cleanup isn't over */
    unsigned users;  /* who is at it, or waits to be */
    unsigned round;  /* of the lazy writer, that came to it last */
    LONGLONG idle;   /* since when nothing needs it */
    uint64_t last, ahead, ahead_count; /* where the last read ended, and pages that are to be read ahead of the next */
    struct {
        const void *by; /* NULL: the seat is free */
        bool is_alone;
        unsigned depth;
    } seats[KZ_SEATS]; /* who has the file system's lock of the stream */
} KzCache;

/* ---- Caches. RAW has none. */
static inline bool kz_is_caching(PFLT_VOLUME volume)
{
    return volume->is_cached && volume->type != FLT_FSTYPE_RAW;
}

extern const struct KzModule kz_cache_module, kz_writer_module;
KzCache *kz_first_cache(void);
/* By which the lazy writer knows to which it has come. */
unsigned kz_next_round(void);
/* NULL: the stream has none. */
KzCache *kz_cache_of(const KzFile *file);
KzCache *kz_cache_with(const SECTION_OBJECT_POINTERS *pointers);
/* The stream's, which begins with the first cached read or write; NULL if there is no memory for it. The handle caches from then on. */
KzCache *kz_begin_cache(KzFile *file);
/* The same for who only has zeros written: the handle doesn't cache. */
KzCache *kz_stream_cache(KzFile *file);
/* What isn't written by then is lost. */
void kz_end_cache(KzCache *cache);
bool kz_holds_cache(const KzFile *file);
/* Paging I/O and what else the cache and the memory manager ask for, of a stream that is cached. */
bool kz_is_for_cache(const KzOp *op);
/* The cleanup of a file's handle is over. */
void kz_cache_cleaned_up(KzFile *file);

/* ---- Pages. A pointer to one is good until the next one is made or goes. */
KzCachedPage *kz_page_of(const KzCache *cache, uint64_t number); /* NULL if it isn't there */
KzCachedPage *kz_make_cached_page(KzCache *cache, uint64_t number, KzPageState state);
void kz_soil_page(KzCachedPage *page);
/* The first dirty page from `first` on that nobody writes, and how many follow it, up to a cluster; 0 if there is none before `end`. */
unsigned kz_dirty_run(const KzCache *cache, uint64_t *first, uint64_t end);
bool kz_has_dirty(const KzCache *cache);
/* Pages go, but for those that come or are written; false if there are some of these. */
bool kz_forget_pages(KzCache *cache, uint64_t first, uint64_t end);

/* ---- What is touched of a cache. Who makes one, ends one or has a view touches everything; so do its handles as they begin to cache, and end. */
void kz_uses_page(const KzCache *cache, uint64_t number, KzUse how);
void kz_reads_pages(const KzCache *cache, uint64_t first, uint64_t end);
/* Which pages there are; which are written: who waits for several of them looks at all. */
void kz_uses_table(const KzCache *cache, KzUse how);
void kz_uses_writes(const KzCache *cache, KzUse how);
/* Another may go on here: if the client has the lock that is seen. */
void kz_keeps_lock(const KzCache *cache);
static inline uint64_t kz_pages_of(uint64_t bytes)
{
    return (bytes + KZ_PAGE - 1) / KZ_PAGE;
}

/* ---- Sections, and views: one that is asked for has its pages, and what may be done there. */
KzArea *kz_open_area(KzFile *file, uint64_t size, bool is_for_scan); /* NULL: there is no memory for it */
void kz_close_area(KzArea *area);
/* A view of what lies from there on, of that length or with none to the section's end. It begins at a multiple of 64 KB, and ends in the section. */
NTSTATUS kz_map_area(const KzArea *area, uint64_t from, uint64_t length, const KzMapped *asked, KzMapped **made);
/* A section or a view of it has gone: on a volume that doesn't cache nothing else needs it. */
void kz_let_cache_go(KzCache *cache);
/* Whether a view, or a section that isn't for a scan, has what lies past that size. */
bool kz_is_viewed(const KzCache *cache, uint64_t size);
NTSTATUS kz_map_view(KzCache *cache, const KzMapped *asked, KzMapped **made);
void kz_unmap_view(KzCache *cache, KzMapped *gone);
/* Of a process that ends. */
void kz_unmap_all(const void *owner);
/* NULL if there is none. */
KzMapped *kz_view_at(const void *address, KzCache **cache);
bool kz_is_in_view(const KzCache *cache, uint64_t number);
/* The page was changed: views see it. */
void kz_show_page(const KzCache *cache, const KzCachedPage *page);
/* It was written to the file itself: pages that are there have it too. */
void kz_see_write(KzCache *cache, uint64_t offset, const uint8_t *bytes, size_t length);
/* What is written in a view. */
NTSTATUS kz_touch_pages(KzCache *cache, uint64_t offset, const uint8_t *bytes, size_t length);
/* What programs changed in their views comes to the pages. */
void kz_take_views(KzCache *cache);

/* ---- The file system's lock of a stream: shared by who reads, and by who changes what is there; else one has it alone. False: it would wait for itself. */
bool kz_lock_stream(KzCache *cache, bool is_alone);
/* At once, by what runs beside the requests. */
bool kz_try_stream(KzCache *cache, const void *by);
void kz_unlock_stream(KzCache *cache, const void *by);

#endif
