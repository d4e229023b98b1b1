/* The bytes of files in memory, by pages. */
#include "filesystem/bytes.h"

#include "core/client.h"
#include "core/memory.h"

#include <stdlib.h>

enum { PAGE = 4096 };

/* Where the page of that number is, or where it would be: they are in the order of their numbers. */
static size_t place_of(const KzPages *pages, uint64_t number)
{
    size_t low = 0, high = pages->count;
    while (low < high) {
        size_t middle = low + (high - low) / 2;
        if (pages->all[middle].number < number)
            low = middle + 1;
        else
            high = middle;
    }
    return low;
}

static const uint8_t *page_at(const KzPages *pages, uint64_t number)
{
    size_t at = place_of(pages, number);
    return at < pages->count && pages->all[at].number == number ? pages->all[at].bytes : NULL;
}

static void grow(KzPages *pages)
{
    size_t room = pages->room * 2 + 4;
    KzPage *all = kz_common_memory(room * sizeof *all);
    if (pages->count)
        memcpy(all, pages->all, pages->count * sizeof *all);
    free(pages->all);
    pages->all = all;
    pages->room = room;
}

static uint8_t *make_page(KzPages *pages, uint64_t number)
{
    size_t at = place_of(pages, number);
    if (at < pages->count && pages->all[at].number == number)
        return pages->all[at].bytes;
    if (pages->count == pages->room)
        grow(pages);
    memmove(pages->all + at + 1, pages->all + at, (pages->count - at) * sizeof *pages->all);
    pages->all[at] = (KzPage){number, kz_memory(PAGE)};
    pages->count++;
    return pages->all[at].bytes;
}

/* How many bytes of a range lie in the page that it begins in. */
static size_t part_of(uint64_t offset, size_t length)
{
    size_t rest = PAGE - (size_t)(offset % PAGE);
    return rest < length ? rest : length;
}

void kz_get_bytes(const KzPages *pages, uint64_t offset, uint8_t *to, size_t length)
{
    for (size_t part; length; offset += part, to += part, length -= part) {
        const uint8_t *page = page_at(pages, offset / PAGE);
        part = part_of(offset, length);
        if (page)
            memcpy(to, page + offset % PAGE, part);
        else
            memset(to, 0, part);
    }
}

void kz_put_bytes(KzPages *pages, uint64_t offset, const uint8_t *from, size_t length)
{
    for (size_t part; length; offset += part, from += part, length -= part) {
        part = part_of(offset, length);
        memcpy(make_page(pages, offset / PAGE) + offset % PAGE, from, part);
    }
}

void kz_copy_pages(KzPages *to, const KzPages *from)
{
    for (size_t at = 0; at < from->count; at++)
        memcpy(make_page(to, from->all[at].number), from->all[at].bytes, PAGE);
}

void kz_cut_bytes(KzPages *pages, uint64_t size)
{
    size_t at = place_of(pages, size / PAGE), kept = size % PAGE;
    if (kept && at < pages->count && pages->all[at].number == size / PAGE) {
        memset(pages->all[at].bytes + kept, 0, PAGE - kept);
        at++;
    }
    for (size_t gone = at; gone < pages->count; gone++)
        free(pages->all[gone].bytes);
    pages->count = at;
    if (at)
        return;
    free(pages->all);
    *pages = (KzPages){0};
}
