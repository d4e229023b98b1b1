/* In whose name paging I/O is asked for: the requestor's own, or the system's process for the lazy writer and what is read ahead. */
#ifndef KZ_CACHE_ASKER_H
#define KZ_CACHE_ASKER_H

#include "core/client.h"

typedef struct {
    PIRP top;
    uint64_t process, thread;
} KzAsker;

/* What it was before. */
static inline KzAsker kz_ask_as(PIRP top, bool is_system)
{
    enum { SYSTEM = 4, WRITER = 12 };
    KzAsker before = {kz_me->top_level, kz_me->process, kz_me->thread};
    kz_me->top_level = top;
    if (is_system) {
        kz_me->process = SYSTEM;
        kz_me->thread = WRITER;
    }
    return before;
}

static inline void kz_ask_again(const KzAsker *before)
{
    kz_me->top_level = before->top;
    kz_me->process = before->process;
    kz_me->thread = before->thread;
}

#endif
