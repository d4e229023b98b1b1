/* The program's memory. An allocation is never used twice within a run, and its address depends on what its own client allocated alone: so a schedule repeats itself to the letter.
 * At the set-up's end all of it is copied. A page that a run writes is opened by its fault, and put back before the next run. */
#include "explore.h"

#include <errno.h>
#include <stdlib.h>
#include <sys/mman.h>

#define PAGE 4096UL
#define BASE 0x10000000000UL
#define ARENA (1UL << 28)

extern char __data_start[], _end[];

typedef struct {
    size_t size, unused;
} Head;

static char *next[RUNNERS + 2]; /* of each client, where its next allocation begins */

/* What isn't put back itself. */
typedef struct {
    char *start, *end, *copy;
    uint8_t *is_open;
} Range;

enum { MOST_RANGES = 64, CALLS = 64 }; /* bytes of code in which the manager asks for memory */

static struct {
    Range ranges[MOST_RANGES]; /* the program's, the first client's memory, and what drivers that are binaries have */
    int ranges_count;
    struct {
        char *at;
        const char *copy;
        uint64_t hash; /* as it is put back */
    } pages[1 << 16]; /* that are open */
    size_t pages_count;
    bool is_taken;
} *image;

static void *map(void *at, size_t size)
{
    void *made = mmap(at, size, PROT_READ | PROT_WRITE, MAP_PRIVATE | MAP_ANONYMOUS | MAP_NORESERVE | (at ? MAP_FIXED : 0), -1, 0);
    return made == MAP_FAILED ? NULL : made;
}

/* Memory that isn't put back. */
void *ex_map(size_t size)
{
    return map(NULL, size);
}

static char *arena(size_t client)
{
    return (char *)(BASE + client * ARENA);
}

void ex_open_memory(void)
{
    if (next[0])
        return;
    map((void *)BASE, ARENA * (RUNNERS + 2));
    for (size_t client = 0; client < RUNNERS + 2; client++)
        next[client] = arena(client);
}

bool ex_is_heap(const void *address)
{
    return (uintptr_t)address >= BASE && (uintptr_t)address < BASE + ARENA * (RUNNERS + 2);
}

unsigned ex_arena_of(const void *address)
{
    return (unsigned)(((uintptr_t)address - BASE) / ARENA);
}

bool ex_is_program(const void *address)
{
    return ((const char *)address >= __data_start && (const char *)address < _end) || kz_is_binary(address);
}

/* ---- The C library's calls. The manager's tables grow for whoever comes to their end: they lie behind what the set-up has, so that no client's addresses depend on who came before it. */
extern const char rattle_alloc[] __attribute__((weak)), rattle_realloc[] __attribute__((weak));

static bool is_managers(const void *caller)
{
    uintptr_t at = (uintptr_t)caller;
    return rattle_alloc && (at - (uintptr_t)rattle_alloc < CALLS || at - (uintptr_t)rattle_realloc < CALLS);
}

static void *allocate(size_t size, const void *caller)
{
    ex_open_memory();
    unsigned client = image && image->is_taken && !is_managers(caller) ? kz_me->number : 0; /* what threads allocate in the set-up is of the image */
    size_t room = (sizeof(Head) + size + 15) & ~(size_t)15;
    Head *head = (Head *)next[client];
    if (room < size || (size_t)(next[client] - arena(client)) + room > ARENA) {
        errno = ENOMEM;
        return NULL;
    }
    next[client] += room;
    if (ex && ex->search.is_reduced)
        memset(head, 0, room);
    head->size = size;
    return head + 1;
}

void *malloc(size_t size)
{
    return allocate(size, __builtin_return_address(0));
}

/* It isn't used again. Two states aren't to differ by what lay there. */
void free(void *memory)
{
    if (memory && ex && ex->search.is_reduced && ex->run.is_running)
        memset(memory, 0, ((Head *)memory - 1)->size);
}

void *calloc(size_t count, size_t size)
{
    size_t whole;
    if (__builtin_mul_overflow(count, size, &whole))
        return NULL;
    void *made = allocate(whole, __builtin_return_address(0));
    return made ? memset(made, 0, whole) : NULL;
}

void *realloc(void *memory, size_t size)
{
    void *made = allocate(size, __builtin_return_address(0));
    if (made && memory) {
        size_t before = ((Head *)memory - 1)->size;
        memcpy(made, memory, before < size ? before : size);
        free(memory);
    }
    return made;
}

static void *aligned(size_t alignment, size_t size)
{
    char *made = allocate(size + alignment + sizeof(Head), NULL);
    if (!made)
        return NULL;
    char *at = (char *)(((uintptr_t)made + sizeof(Head) + alignment - 1) & ~(uintptr_t)(alignment - 1));
    ((Head *)at - 1)->size = size;
    return at;
}

void *memalign(size_t alignment, size_t size)
{
    return aligned(alignment, size);
}

void *aligned_alloc(size_t alignment, size_t size)
{
    return aligned(alignment, size);
}

int posix_memalign(void **memory, size_t alignment, size_t size)
{
    *memory = aligned(alignment, size);
    return *memory ? 0 : ENOMEM;
}

/* ---- The image. */
static void take(Range *range, char *start, char *end)
{
    *range = (Range){.start = (char *)((uintptr_t)start & ~(PAGE - 1)), .end = (char *)(((uintptr_t)end + PAGE - 1) & ~(PAGE - 1))};
    size_t size = (size_t)(range->end - range->start);
    range->copy = map(NULL, size);
    range->is_open = map(NULL, size / PAGE + 1);
}

void ex_take_image(void)
{
    image = map(NULL, sizeof *image);
    take(&image->ranges[0], __data_start, _end);
    take(&image->ranges[1], arena(0), next[0]);
    image->ranges_count = 2;
    for (char *start, *end; kz_binaries.data && image->ranges_count < MOST_RANGES && kz_binaries.data((unsigned)image->ranges_count - 2, &start, &end); image->ranges_count++)
        take(&image->ranges[image->ranges_count], start, end);
    image->is_taken = true;
    for (int at = 0; at < image->ranges_count; at++) {
        Range *range = &image->ranges[at];
        memcpy(range->copy, range->start, (size_t)(range->end - range->start));
        mprotect(range->start, (size_t)(range->end - range->start), PROT_READ);
    }
}

/* What earlier runs left in the clients' arenas is gone. */
void ex_clear_arenas(void)
{
    for (size_t client = 1; client < RUNNERS + 2; client++)
        madvise(arena(client), ARENA, MADV_DONTNEED);
}

static Range *range_of(const char *address)
{
    for (int at = 0; image && image->is_taken && at < image->ranges_count; at++)
        if (address >= image->ranges[at].start && address < image->ranges[at].end)
            return &image->ranges[at];
    return NULL;
}

/* The fault of a page's first write: true if it may be written from now on. */
bool ex_opens_page(const void *address)
{
    char *page = (char *)((uintptr_t)address & ~(PAGE - 1));
    Range *range = range_of(page);
    if (!range || range->is_open[(page - range->start) / PAGE] || image->pages_count == sizeof image->pages / sizeof image->pages[0])
        return false;
    const char *copy = range->copy + (page - range->start);
    range->is_open[(page - range->start) / PAGE] = 1;
    image->pages[image->pages_count].at = page;
    image->pages[image->pages_count].copy = copy;
    image->pages[image->pages_count++].hash = ex_bytes_hash(copy, PAGE, (uintptr_t)page);
    mprotect(page, PAGE, PROT_READ | PROT_WRITE);
    return true;
}

void ex_put_back(void)
{
    for (size_t at = 0; at < image->pages_count; at++)
        memcpy(image->pages[at].at, image->pages[at].copy, PAGE);
    if (kz_binaries.put_back)
        kz_binaries.put_back();
}

/* ---- What a run has changed so far: of each page the lines that aren't as in the image, a bit for each. */
enum { LINE = 64, PART = 8 * LINE };

static uint64_t changed_lines(const char *page, const char *copy)
{
    uint64_t changed = 0;
    for (size_t at = 0; at < PAGE; at += LINE)
        if (at % PART == 0 && memcmp(page + at, copy + at, PART) == 0)
            at += PART - LINE;
        else if (memcmp(page + at, copy + at, LINE) != 0)
            changed |= 1UL << at / LINE;
    return changed;
}

static void pass_page(Store *store, char *page, const char *copy)
{
    uint64_t changed = store->is_kept ? changed_lines(page, copy) : 0;
    if (!store->is_kept)
        memcpy(page, copy, PAGE);
    ex_pass(store, &changed, sizeof changed);
    for (; changed; changed &= changed - 1)
        ex_pass(store, page + (size_t)__builtin_ctzl(changed) * LINE, LINE);
}

/* One that was opened since is as in the image. */
static void pass_pages(Store *store)
{
    size_t count = image->pages_count;
    ex_pass(store, &count, sizeof count);
    for (size_t at = 0; at < image->pages_count; at++)
        if (at < count)
            pass_page(store, image->pages[at].at, image->pages[at].copy);
        else
            memcpy(image->pages[at].at, image->pages[at].copy, PAGE);
}

/* The pages come first: they say how much of the arenas is used. */
void ex_pass_memory(Store *store)
{
    pass_pages(store);
    for (size_t client = 0; client < RUNNERS + 2; client++) {
        char *start = client ? arena(client) : image->ranges[1].end;
        if (next[client] > start)
            ex_pass(store, start, (size_t)(next[client] - start));
    }
}

/* Of all that a run changed: pages that were written, and what the clients allocated. A page that is as it was counts as none. */
uint64_t ex_memory_hash(void)
{
    uint64_t hash = 0;
    for (size_t at = 0; at < image->pages_count; at++)
        hash += ex_bytes_hash(image->pages[at].at, PAGE, (uintptr_t)image->pages[at].at) - image->pages[at].hash;
    if (next[0] > image->ranges[1].end)
        hash += ex_bytes_hash(image->ranges[1].end, (size_t)(next[0] - image->ranges[1].end), 0);
    for (size_t client = 1; client <= (size_t)ex->run.runners_count; client++)
        hash += ex_bytes_hash(arena(client), (size_t)(next[client] - arena(client)), client);
    return hash;
}
