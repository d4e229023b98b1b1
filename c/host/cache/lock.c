/* The file system's lock of a stream that is cached. */
#include "cache/cache.h"

#include "core/client.h"

static size_t seat_of(const KzCache *cache, const void *by)
{
    size_t at = 0;
    while (at < KZ_SEATS && cache->seats[at].by != by)
        at++;
    return at;
}

typedef struct {
    KzCache *cache;
    const void *by;
    bool is_alone;
} Wanted;

static bool is_free(void *given)
{
    const Wanted *wanted = given;
    for (size_t at = 0; at < KZ_SEATS; at++) {
        const void *by = wanted->cache->seats[at].by;
        bool is_own = by == wanted->by, is_alone = wanted->cache->seats[at].is_alone;
        if (is_own && (is_alone || !wanted->is_alone))
            return true; /* who has it alone may take it again, and who shares it may share it again */
        if (by && (wanted->is_alone || is_alone))
            return false;
    }
    return seat_of(wanted->cache, NULL) < KZ_SEATS;
}

/* Who is in the way of a client: the lazy writer of those that run beside the requests is none. */
static const KzClient *owner_of(const void *given)
{
    const Wanted *wanted = given;
    for (size_t at = 0; at < KZ_SEATS; at++) {
        const void *by = wanted->cache->seats[at].by;
        if (by && by != wanted->by && by != kz.cache && (wanted->is_alone || wanted->cache->seats[at].is_alone))
            return by;
    }
    return NULL;
}

static void sit_down(const Wanted *wanted)
{
    KzCache *cache = wanted->cache;
    size_t at = seat_of(cache, wanted->by);
    at = at < KZ_SEATS ? at : seat_of(cache, NULL);
    cache->seats[at].by = wanted->by;
    cache->seats[at].is_alone |= wanted->is_alone;
    cache->seats[at].depth++;
    cache->users++;
}

void kz_keeps_lock(const KzCache *cache)
{
    if (seat_of(cache, kz_me) < KZ_SEATS)
        kz_scheduler->uses(cache->seats, KZU_WRITES);
}

/* Who lets go of it in the same step only looks whether it is free. */
bool kz_lock_stream(KzCache *cache, bool is_alone)
{
    Wanted wanted = {cache, kz_me, is_alone};
    kz_me->is_known &= kz_me->is_paging;
    cache->users++;
    kz_keeps_lock(cache);
    kz_scheduler->uses(cache->seats, KZU_READS);
    kz_waits_for_owner(owner_of, &wanted, false);
    bool has_it = kz_wait(is_free, &wanted, "the file system's lock of \\%s", cache->holder->path);
    kz_scheduler->uses(cache->seats, KZU_READS);
    kz_keeps_lock(cache);
    cache->users--;
    if (has_it)
        sit_down(&wanted);
    kz_take_views(cache);
    return has_it;
}

bool kz_try_stream(KzCache *cache, const void *by)
{
    Wanted wanted = {cache, by, false};
    bool has_it = is_free(&wanted);
    if (has_it)
        sit_down(&wanted);
    kz_take_views(cache);
    return has_it;
}

void kz_unlock_stream(KzCache *cache, const void *by)
{
    size_t at = seat_of(cache, by);
    cache->users--;
    if (--cache->seats[at].depth == 0) {
        cache->seats[at].by = NULL;
        cache->seats[at].is_alone = false;
    }
    kz.changes++;
}
