/* Which accesses are in order: a clock of each client for each client. What takes an object comes behind all that gave it before. Two accesses of different clients that aren't
 * in order, of which one writes, are a race. Memory that was given back isn't to be touched at all. */
#include "explore.h"
#include "core/access.h"
#include "core/binary.h"
#include "core/edge.h"
#include "core/pointer.h"

#include <sys/mman.h>

enum { CELLS = 1 << 16, OBJECTS = 1 << 12, FREED = 4096, LEARNED = 1 << 14, GAVE = 1024 };

/* What a client did with eight bytes: which of them, when, and where from. */
typedef struct {
    uint32_t when, from;
    uint8_t bytes;
    bool is_atomic, is_update;
} Access;

typedef struct {
    uintptr_t tag;
    struct {
        Access read, write;
    } by[RUNNERS + 1];
} Cell;

/* Where a cell is looked for: apart from what the clients did with it, so that many are near one another. */
typedef struct {
    uintptr_t tag;
    uint32_t run;
} Place;

typedef struct {
    const void *object;
    uint32_t run;
    uint32_t clock[RUNNERS + 1];
} Object;

static struct {
    Place places[CELLS];
    Cell cells[CELLS];
    Object objects[OBJECTS];
    uint32_t clock[RUNNERS + 1][RUNNERS + 1];
    struct {
        uintptr_t start, end;
        uint32_t from;
        int client;
    } freed[FREED];
    size_t freed_count;
    uint32_t cells_made[CELLS], objects_made[OBJECTS]; /* in this run: where they are */
    size_t cells_count, objects_count;
    struct {
        unsigned step;
        const char *call;
        const void *from;
    } gave[RUNNERS + 1][GAVE]; /* for the trace: what a client's clock stood at */
    uintptr_t least, most;
    uint64_t hash; /* of what the cells and the objects of this run say */
    uintptr_t learned[LEARNED]; /* cells that are met by interlocked or volatile accesses */
    bool is_learning;
} *shadow;

void ex_open_shadow(void)
{
    shadow = mmap(NULL, sizeof *shadow, PROT_READ | PROT_WRITE, MAP_PRIVATE | MAP_ANONYMOUS | MAP_NORESERVE, -1, 0);
}

void ex_start_clocks(void)
{
    memset(shadow->clock, 0, sizeof shadow->clock);
    for (int client = 0; client <= RUNNERS; client++)
        shadow->clock[client][client] = 1;
    shadow->freed_count = shadow->cells_count = shadow->objects_count = 0;
    shadow->least = UINTPTR_MAX;
    shadow->most = 0;
    shadow->hash = 0;
}

/* ---- What two states differ by. */
static uint64_t access_hash(const Cell *cell, unsigned client, bool is_write)
{
    const Access *one = is_write ? &cell->by[client].write : &cell->by[client].read;
    if (!ex->search.is_reduced || !one->when)
        return 0;
    return ex_mixed(ex_mixed(cell->tag << 6 | client << 1 | is_write) + ex_mixed((uint64_t)one->when << 32 | one->from) * 3 + one->bytes * 2u + one->is_atomic + (uint64_t)one->is_update * 1024);
}

static uint64_t vector_hash(const uint32_t *clock, uint64_t of)
{
    uint64_t hash = 0;
    for (int client = 1; ex->search.is_reduced && client <= ex->run.runners_count; client++)
        hash += clock[client] ? ex_mixed(of * 32 + (unsigned)client + ((uint64_t)clock[client] << 48)) : 0;
    return hash;
}

uint64_t ex_clocks_hash(void)
{
    uint64_t hash = shadow->hash;
    for (int client = 1; client <= ex->run.runners_count; client++)
        hash += vector_hash(shadow->clock[client], (unsigned)client);
    for (size_t at = 0; at < shadow->freed_count; at++)
        hash += ex_mixed(shadow->freed[at].start * 3 + shadow->freed[at].end * 5 + ((uint64_t)shadow->freed[at].from << 32) + (unsigned)shadow->freed[at].client);
    return hash;
}

static size_t hashed(uintptr_t key, size_t size)
{
    return (size_t)((key * 0x9e3779b97f4a7c15ULL) >> 40) & (size - 1);
}

static Cell *make_cell(size_t at, uintptr_t tag)
{
    Cell *cell = &shadow->cells[at];
    memset(cell->by, 0, sizeof cell->by[0] * ((size_t)ex->run.most_runners + 1));
    shadow->places[at] = (Place){tag, ex->run.number};
    shadow->cells_made[shadow->cells_count++] = (uint32_t)at;
    cell->tag = tag;
    return cell;
}

/* NULL where the table is full: then nothing is told of it. Eight cells in a row have places in a row. */
static Cell *cell_of(uintptr_t tag, bool is_made)
{
    size_t at = hashed(tag >> 3, CELLS / 8) * 8 + tag % 8;
    for (int tries = 0; tries < 64; tries++, at = (at + 1) & (CELLS - 1)) {
        const Place *place = &shadow->places[at];
        if (place->run != ex->run.number)
            return is_made ? make_cell(at, tag) : NULL;
        if (place->tag == tag)
            return &shadow->cells[at];
    }
    return NULL;
}

static Object *object_of(const void *object)
{
    size_t at = hashed((uintptr_t)object, OBJECTS);
    for (int tries = 0; tries < 256; tries++, at = (at + 1) & (OBJECTS - 1)) {
        Object *one = &shadow->objects[at];
        if (one->run == ex->run.number && one->object == object)
            return one;
        if (one->run == ex->run.number)
            continue;
        memset(one, 0, sizeof *one);
        one->run = ex->run.number;
        one->object = object;
        shadow->objects_made[shadow->objects_count++] = (uint32_t)at;
        return one;
    }
    return NULL;
}

static void pass_cells(Store *store)
{
    ex_pass(store, &shadow->cells_count, sizeof shadow->cells_count);
    ex_pass(store, shadow->cells_made, shadow->cells_count * sizeof shadow->cells_made[0]);
    for (size_t made = 0; made < shadow->cells_count; made++) {
        size_t at = shadow->cells_made[made];
        ex_pass(store, &shadow->cells[at].tag, sizeof shadow->cells[at].tag);
        ex_pass(store, shadow->cells[at].by, sizeof shadow->cells[at].by[0] * ((size_t)ex->run.most_runners + 1));
        shadow->places[at] = (Place){shadow->cells[at].tag, ex->run.number};
    }
}

static void pass_objects(Store *store)
{
    ex_pass(store, &shadow->objects_count, sizeof shadow->objects_count);
    ex_pass(store, shadow->objects_made, shadow->objects_count * sizeof shadow->objects_made[0]);
    for (size_t made = 0; made < shadow->objects_count; made++) {
        Object *one = &shadow->objects[shadow->objects_made[made]];
        ex_pass(store, one, sizeof *one);
        one->run = ex->run.number;
    }
}

void ex_pass_clocks(Store *store)
{
    ex_pass(store, shadow->clock, sizeof shadow->clock);
    ex_pass(store, &shadow->freed_count, sizeof shadow->freed_count);
    ex_pass(store, shadow->freed, shadow->freed_count * sizeof shadow->freed[0]);
    ex_pass(store, &shadow->least, sizeof shadow->least);
    ex_pass(store, &shadow->most, sizeof shadow->most);
    ex_pass(store, &shadow->hash, sizeof shadow->hash);
    pass_cells(store);
    pass_objects(store);
}

/* How memory is met. */
enum { IS_WRITE = 1, IS_ATOMIC = 2, IS_UPDATE = 4, IS_FREEING = 8 };
static const char *word_of(bool is_atomic, bool is_write, bool is_update)
{
    static const char *const words[2][2] = {{"a read", "a write"}, {"an interlocked read", "an interlocked write"}};
    return is_update ? "an update without lock" : words[is_atomic][is_write];
}

/* Why nothing orders them: up to where the one that is here comes behind the other. */
static void tell_why(int client)
{
    char text[TEXT], place[40] = "";
    uint32_t known = shadow->clock[kz_me->number][client];
    if (known >= GAVE)
        return;
    if (known && shadow->gave[client][known].from)
        snprintf(place, sizeof place, " at @%lx", (unsigned long)(uintptr_t)shadow->gave[client][known].from);
    if (!known)
        snprintf(text, sizeof text, "  %s comes behind nothing that %s did\n", kz_me->name, ex_runners[client].name);
    else
        snprintf(text, sizeof text, "  %s comes behind what %s did up to step %u, %s%s, and behind nothing since\n", kz_me->name, ex_runners[client].name, shadow->gave[client][known].step,
                 shadow->gave[client][known].call, place);
    ex_trace_found(text);
}

static void tell(const Access *before, bool was_write, int client, const void *from, unsigned how)
{
    char text[TEXT], place[32] = "the end of its operation";
    Runner *other = &ex_runners[client];
    bool is_freeing = how & IS_FREEING;
    const char *now = is_freeing ? "memory is freed" : word_of(how & IS_ATOMIC, how & IS_WRITE, how & IS_UPDATE);
    if (from)
        snprintf(place, sizeof place, "@%lx", (unsigned long)(uintptr_t)from);
    snprintf(text, sizeof text, "RACE: %s at %s (" KZ_MARK "%s" KZ_MARK "), and %s at @%lx (" KZ_MARK "%s" KZ_MARK "), and nothing orders them", now, place, kz_me->name,
             word_of(before->is_atomic, was_write, before->is_update), (unsigned long)before->from, other->name);
    if (ex_found_race(is_freeing ? BESIDE_FREEING : BETWEEN_ACCESSES, text, (uintptr_t)from, before->from) && ex->search.is_traced)
        tell_why(client);
}

/* A plain read beside an interlocked write is what drivers do on purpose. */
static bool is_race(const Access *before, uint8_t bytes, uint32_t known, bool was_write, unsigned how)
{
    bool is_write = how & IS_WRITE, is_atomic = how & IS_ATOMIC;
    if (before->when <= known || !(before->bytes & bytes) || (!was_write && !is_write))
        return false;
    if (before->is_atomic && is_atomic)
        return before->is_update && how & IS_UPDATE;
    return !(before->is_atomic && was_write && !is_write) && !(is_atomic && is_write && !was_write && !before->is_atomic);
}

static void look(Cell *cell, uint8_t bytes, unsigned how, const void *from)
{
    unsigned me = kz_me->number;
    for (int client = 1; client <= ex->run.runners_count; client++) {
        if (client == (int)me)
            continue;
        uint32_t known = shadow->clock[me][client];
        if (is_race(&cell->by[client].write, bytes, known, true, how))
            tell(&cell->by[client].write, true, client, from, how);
        else if (is_race(&cell->by[client].read, bytes, known, false, how))
            tell(&cell->by[client].read, false, client, from, how);
    }
}

/* `what` is in words what it does there. */
static void look_at_freed(uintptr_t address, const void *from, const char *what)
{
    if (address < shadow->least || address >= shadow->most)
        return;
    for (size_t at = 0; at < shadow->freed_count; at++) {
        if (address < shadow->freed[at].start || address >= shadow->freed[at].end)
            continue;
        char text[TEXT];
        char place[32] = "the end of its operation";
        ex_use_all();
        if (shadow->freed[at].from)
            snprintf(place, sizeof place, "@%x", shadow->freed[at].from);
        snprintf(text, sizeof text, "USE AFTER FREE: %s at @%lx (" KZ_MARK "%s" KZ_MARK ") of memory that %s gave back at %s", what, (unsigned long)(uintptr_t)from, kz_me->name,
                 ex_runners[shadow->freed[at].client].name, place);
        ex_found_race(AFTER_FREEING, text, (uintptr_t)from, shadow->freed[at].from);
        return;
    }
}

static inline bool is_watched(void)
{
    return ex && ex->run.is_running && !ex->run.is_alone && kz_me != &kz_first;
}

/* ---- Cells that are met by interlocked or volatile accesses. */
void ex_learn_cells(bool is)
{
    shadow->is_learning = is;
}

static uintptr_t *place_of(uintptr_t tag)
{
    size_t at = hashed(tag, LEARNED), tries = 0;
    while (shadow->learned[at] && shadow->learned[at] != tag && tries++ < 64)
        at = (at + 1) & (LEARNED - 1);
    return &shadow->learned[at];
}

static void learn(const void *address)
{
    uintptr_t tag = (uintptr_t)address >> 3, *place = place_of(tag);
    if (!*place)
        *place = tag;
}

static bool is_met_by_others(const Cell *cell)
{
    for (int client = 1; cell && client <= ex->run.runners_count; client++)
        if (client != (int)kz_me->number && (cell->by[client].write.is_atomic || cell->by[client].read.is_atomic))
            return true;
    return false;
}

/* Whether it is met by others in this run, or was in the runs before the search: then a plain access is a point as well. */
static bool is_shared(uintptr_t tag)
{
    return *place_of(tag) == tag || is_met_by_others(cell_of(tag, false));
}

/* Others meet it in this run, and one of them or this one writes. */
static bool is_contended(uintptr_t tag, bool is_write)
{
    const Cell *cell = cell_of(tag, false);
    for (int client = 1; cell && client <= ex->run.runners_count; client++)
        if (client != (int)kz_me->number && (cell->by[client].write.when || (is_write && cell->by[client].read.when)))
            return true;
    return false;
}

/* Who comes first there decides whether the other's plain access is a point. */
static void use_meetings(uintptr_t start, uintptr_t end, bool is_atomic)
{
    for (uintptr_t tag = start >> 3; tag <= (end - 1) >> 3; tag++)
        if (*place_of(tag) != tag)
            ex_use_meetings(tag, is_atomic);
}

static bool is_point(uintptr_t start, uintptr_t end, bool is_atomic)
{
    return is_atomic || (!ex->search.is_coarse && (is_shared(start >> 3) || ((end - 1) >> 3 != start >> 3 && is_shared((end - 1) >> 3))));
}

/* The access is compared with those of others, and kept. */
static void note(const void *address, size_t size, unsigned how, const void *from)
{
    uintptr_t start = (uintptr_t)address, end = start + size;
    bool is_write = how & IS_WRITE, is_atomic = how & IS_ATOMIC, is_update = how & IS_UPDATE;
    if (ex->search.is_traced)
        ex_trace_access(address, size, is_write, is_atomic, from);
    if (ex->search.is_thinned)
        ex_use_memory(address, size, is_write);
    if (ex->run.pair && size && (ex_is_heap(address) || ex_is_program(address)))
        ex_note_seen(ex_bytes_hash(address, size, (uintptr_t)from));
    look_at_freed(start, from, word_of(false, is_write, false));
    kz_look_at_owned(address, size, from, is_write);
    ex_hooked = from;
    if (!is_write && size && ex_is_heap(address))
        kz_look_past(address, size, from);
    ex_hooked = NULL;
    for (uintptr_t tag = start >> 3; tag << 3 < end; tag++) {
        uintptr_t first = tag << 3 < start ? start - (tag << 3) : 0, last = (tag << 3) + 8 > end ? end - (tag << 3) : 8;
        uint8_t bytes = (uint8_t)((0xff << first) & (0xff >> (8 - last)));
        Cell *cell = cell_of(tag, true);
        if (!cell)
            continue;
        look(cell, bytes, how, from);
        unsigned me = kz_me->number;
        Access *mine = is_write ? &cell->by[me].write : &cell->by[me].read;
        bool is_same = mine->when == shadow->clock[me][me] && mine->is_atomic == is_atomic && mine->is_update == is_update;
        shadow->hash -= access_hash(cell, me, is_write);
        *mine = (Access){shadow->clock[me][me], (uint32_t)(uintptr_t)from, is_same ? mine->bytes | bytes : bytes, is_atomic, is_update};
        shadow->hash += access_hash(cell, me, is_write);
    }
}

void ex_access(const void *address, size_t size, bool is_write, bool is_atomic, const void *from)
{
    uintptr_t start = (uintptr_t)address, end = start + size;
    if (is_atomic && shadow && (shadow->is_learning || !ex->run.is_running) && !ex_is_stack(address))
        learn(address);
    if (!is_watched() || ex_is_stack(address))
        return;
    if (ex->search.is_thinned && !is_atomic && !ex->search.is_coarse)
        use_meetings(start, end, false);
    if (is_point(start, end, is_atomic))
        ex_memory_point(address, size, from);
    if (ex->search.is_thinned && is_atomic)
        use_meetings(start, end, true);
    if (!is_write)
        ex_may_change(address, size);
    note(address, size, (is_write ? IS_WRITE : 0) | (is_atomic ? IS_ATOMIC : 0), from);
}

void ex_move(const void *address, size_t size, bool is_write, bool is_update, const void *from)
{
    uintptr_t tag = (uintptr_t)address >> 3; /* it is aligned: there is one */
    if (!is_watched() || ex_is_stack(address))
        return;
    bool is_shared = is_contended(tag, is_write);
    if (is_shared && shadow->is_learning)
        learn(address);
    is_shared |= *place_of(tag) == tag;
    if (is_shared && !ex->search.is_coarse)
        ex_memory_point(address, size, from);
    if (!is_write)
        ex_may_change(address, size);
    note(address, size, IS_ATOMIC | (is_write ? IS_WRITE : 0) | (is_update ? IS_UPDATE : 0), from);
    if (is_write || is_shared) /* who reads it later comes behind this write, also where it isn't known yet that somebody will */
        ex_touch(address, 0, is_write ? KZT_GIVES : KZT_TAKES);
    if (is_write && is_shared)
        ex_note_change();
}

/* ---- The kit's calls over a driver's memory (c/host/lib). Each client has the line of the driver that made the call it is in, and how deep it is; no line where the host itself made it. */
static struct {
    unsigned depth;
    const void *from;
} calls[RUNNERS + 1];

void ex_forget_lib_calls(void)
{
    memset(calls, 0, sizeof calls);
}

void ex_enter_lib(const void *from)
{
    if (is_watched() && calls[kz_me->number].depth++ == 0)
        calls[kz_me->number].from = kz_me->inside ? NULL : kz_caller(from);
}

void ex_leave_lib(void)
{
    if (is_watched() && calls[kz_me->number].depth > 0)
        calls[kz_me->number].depth--;
}

/* No other client goes on inside such a call: in the kit too it is the driver's line that is interrupted, before it or behind it. */
void ex_lib_access(const void *address, size_t size, bool is_write)
{
    if (!is_watched())
        return;
    if (is_write)
        ex_see_writes(); /* a copy of many bytes: it needn't be late */
    if (calls[kz_me->number].depth == 0 || !calls[kz_me->number].from || !size || ex_is_stack(address))
        return;
    if (!is_write)
        ex_may_change(address, size);
    note(address, size, is_write ? IS_WRITE : 0, calls[kz_me->number].from);
}

void ex_kit_access(const void *address, size_t size, bool is_write)
{
    const void *from = kz_me->place.from;
    if (!is_watched() || !from || !size || ex_is_stack(address) || !kz_is_drivers_memory(address))
        return;
    if (is_write)
        ex_see_writes();
    note(address, size, is_write ? IS_WRITE : 0, from);
}

static void take(Object *one)
{
    uint32_t *mine = shadow->clock[kz_me->number];
    for (int client = 1; client <= ex->run.runners_count; client++)
        if (one->clock[client] > mine[client])
            mine[client] = one->clock[client];
}

static void give(Object *one)
{
    unsigned me = kz_me->number;
    uint32_t *mine = shadow->clock[me];
    if (ex->search.is_traced && mine[me] < GAVE) {
        shadow->gave[me][mine[me]].step = ex->run.steps;
        shadow->gave[me][mine[me]].call = kz_me->place.call ? kz_me->place.call : ex_runners[me].at;
        shadow->gave[me][mine[me]].from = kz_me->place.call ? kz_me->place.from : NULL;
    }
    shadow->hash -= vector_hash(one->clock, (uintptr_t)one->object);
    for (int client = 1; client <= ex->run.runners_count; client++)
        if (mine[client] > one->clock[client])
            one->clock[client] = mine[client];
    shadow->hash += vector_hash(one->clock, (uintptr_t)one->object);
    shadow->clock[me][me]++;
}

/* Memory is given back: whoever looked at it must be in order with that. */
static void take_back(const void *memory, size_t size)
{
    uintptr_t start = (uintptr_t)memory, end = start + size;
    const void *from = kz_me->place.from ? kz_me->place.from : ex_runners[kz_me->number].from;
    for (uintptr_t tag = start >> 3; tag << 3 < end; tag++) {
        Cell *cell = cell_of(tag, false);
        if (cell)
            look(cell, 0xff, IS_WRITE | IS_FREEING, from);
        if (cell && kz_binaries.size && shadow->is_learning && is_contended(tag, true))
            learn((const void *)(tag << 3));
    }
    if (shadow->freed_count == FREED)
        return;
    shadow->freed[shadow->freed_count].start = start;
    shadow->freed[shadow->freed_count].end = end;
    shadow->freed[shadow->freed_count].from = (uint32_t)(uintptr_t)from;
    shadow->freed[shadow->freed_count++].client = (int)kz_me->number;
    shadow->least = start < shadow->least ? start : shadow->least;
    shadow->most = end > shadow->most ? end : shadow->most;
}

void ex_touch(const void *object, size_t size, KzTouch how)
{
    if (!is_watched())
        return;
    if (how == KZT_HAS_TAKEN_BACK) {
        ex_use_gone(object, size);
        take_back(object, size);
        ex_forget_reads(object, size);
        return;
    }
    if (how == KZT_READS) {
        ex_kit_access(object, size, false);
        return;
    }
    if (kz_me->place.call && kz_me->place.from) /* the kit itself uses what lies there */
        look_at_freed((uintptr_t)object, kz_me->place.from, kz_me->place.call);
    ex_uses(object, how == KZT_TAKES ? KZU_READS : KZU_ADDS);
    Object *one = object_of(object);
    if (ex->search.is_traced && kz_me->place.call)
        ex_trace_object(object, how == KZT_TAKES, kz_me->place.call);
    if (!one)
        return;
    if (how == KZT_TAKES)
        take(one);
    else
        give(one);
}

/* An interlocked call: it comes behind those before it on the same memory. */
void ex_in_order(const void *object)
{
    ex_touch(object, 0, KZT_TAKES);
    ex_touch(object, 0, KZT_GIVES);
}
