/* What the step that goes on uses: eight bytes of memory each, and what the host says that it touches. What isn't known to be little is taken to be everything. Two steps of different clients that
 * use nothing in common, or only read or add to it, come to the same in either order. */
#include "explore.h"
#include "core/op.h"
#include "core/piece.h"

static Footprint *now; /* not put back */

/* Which accesses make a plain access to the same place a point. */
#define MET (1UL << 62)
#define BLOCK (1UL << 61)

void ex_open_footprints(void)
{
    now = ex_map(sizeof *now);
}

Footprint *ex_begin_footprint(void)
{
    now->is_all = now->is_by_blocks = false;
    now->count = 0;
    return now;
}

Footprint *ex_footprint(void)
{
    return now;
}

static bool is_kept(void)
{
    return now && !now->is_all && ex->search.is_thinned && ex->run.is_running && !ex->run.is_alone && kz_me != &kz_first;
}

void ex_use_all(void)
{
    if (is_kept())
        now->is_all = true;
}

/* ---- Words, and blocks of them. Whoever uses a word adds to its block, whatever he does there: so he meets those that use the whole block, and no other that uses words. */
static uintptr_t block_of(uintptr_t tag)
{
    return (tag & MET) | BLOCK | ((tag & ~MET) >> 9);
}

Use ex_block_around(uintptr_t tag)
{
    return (Use){block_of(tag), KZU_ADDS};
}

static void put(uintptr_t tag, KzUse how)
{
    unsigned at = now->count;
    while (at > 0 && now->uses[at - 1].tag != tag)
        at--;
    if (at > 0)
        now->uses[at - 1].how = now->uses[at - 1].how == how ? how : KZU_WRITES;
    else if (now->count == USES)
        now->is_all = true;
    else
        now->uses[now->count++] = (Use){tag, how};
}

static void put_block(uintptr_t tag, KzUse how)
{
    put(block_of(tag), how == KZU_READS ? how : KZU_WRITES);
}

/* There are too many words: it has their blocks from now on. */
static void fold(void)
{
    const Footprint words = *now;
    ex->run.met |= MET_MANY_WORDS;
    if (!(ex->search.minds & MET_MANY_WORDS)) {
        now->is_all = true;
        return;
    }
    now->count = 0;
    now->is_by_blocks = true;
    for (unsigned at = 0; at < words.count; at++)
        if (!(words.uses[at].tag & BLOCK))
            put_block(words.uses[at].tag, words.uses[at].how);
}

static void use(uintptr_t tag, KzUse how)
{
    if (!now->is_by_blocks && now->count + 2 > USES)
        fold();
    if (now->is_by_blocks)
        put_block(tag, how);
    else
        put(tag, how);
    if (!now->is_by_blocks && ex->search.minds & MET_MANY_WORDS)
        put(block_of(tag), KZU_ADDS);
}

void ex_uses(const void *object, KzUse how)
{
    if (!is_kept())
        return;
    if (object)
        use((uintptr_t)object >> 3, how);
    else
        now->is_all = true;
}

void ex_use_words(const void *address, size_t size, bool is_write)
{
    uintptr_t first = (uintptr_t)address >> 3, last = ((uintptr_t)address + size - (size > 0)) >> 3;
    if (!is_kept())
        return;
    if (last - first >= USES && !now->is_by_blocks)
        fold();
    for (uintptr_t tag = first; !now->is_all && tag <= last; tag = now->is_by_blocks ? (tag | 511) + 1 : tag + 1)
        use(tag, is_write ? KZU_WRITES : KZU_READS);
}

/* Whether a plain access is a point depends on who met the place before. */
void ex_use_meetings(uintptr_t tag, bool is_atomic)
{
    if (is_kept())
        use(tag | MET, is_atomic ? KZU_ADDS : KZU_READS);
}

/* ---- Memory that isn't a driver's alone. The host reads and writes it as well, and says nothing of that. */
static bool is_in(const KzPiece *piece, const void *address)
{
    return (uintptr_t)address - (uintptr_t)piece->body < piece->size;
}

static const KzPiece *piece_around(const void *address)
{
    const KzPiece *piece = kz_first_piece();
    while (piece && !is_in(piece, address))
        piece = kz_next_piece(piece);
    return piece;
}

/* Whoever carries the operation on shows its callbacks what is in it, and looks at what they left. */
static bool is_of_operation(const KzPiece *piece)
{
    const KzOp *op = kz.ops;
    while (op && op->data != (const void *)piece->body && op->iopb != (const void *)piece->body)
        op = op->next;
    if (op && op->maker != kz_me->number)
        use((uintptr_t)op >> 3, KZU_WRITES);
    return op != NULL;
}

static bool is_drivers(const void *address, bool is_write)
{
    bool is_own = ex_arena_of(address) == kz_me->number;
    if (is_own && !is_write)
        return true;
    const KzPiece *piece = piece_around(address);
    if (!piece)
        return !is_write;
    if (piece->kind == KZK_POOL || piece->kind == KZK_CONTEXT)
        return true;
    if (piece->kind == KZK_DATA)
        return is_of_operation(piece);
    return piece->kind == KZK_NAME ? !is_write : is_own;
}

/* What lies around memory, and what was given back, is looked at as callbacks return. */
static bool is_filled(const uint8_t *bytes, size_t size)
{
    for (size_t at = 0; at < size; at++)
        if (bytes[at] == KZ_ZONE_BYTE || bytes[at] == KZ_GONE_BYTE)
            return true;
    return false;
}

void ex_use_memory(const void *address, size_t size, bool is_write)
{
    if (!is_kept())
        return;
    if (ex_is_heap(address) && (!is_drivers(address, is_write) || (is_write && is_filled(address, size))))
        now->is_all = true;
    ex_use_words(address, size, is_write);
}

/* Memory is given back. Who else touches what is one operation's is taken to use everything. */
void ex_use_gone(const void *memory, size_t size)
{
    const KzPiece *piece = is_kept() ? kz_piece_of(memory) : NULL;
    if (piece && (piece->kind == KZK_POOL || piece->kind == KZK_CONTEXT || piece->kind == KZK_NAME))
        ex_use_words(memory, size, true);
}

/* ---- Which meet: each two but for two reads, and two that only add. */
static bool do_meet(KzUse one, KzUse other)
{
    return one == KZU_WRITES || other == KZU_WRITES || one != other;
}

bool ex_do_depend(const Use *a, unsigned count, const Use *b, unsigned others)
{
    for (unsigned at = 0; at < count; at++)
        for (unsigned other = 0; other < others; other++)
            if (a[at].tag == b[other].tag && do_meet(a[at].how, b[other].how))
                return true;
    return false;
}
