/* Lookaside lists. */
#include "core/access.h"
#include "core/client.h"
#include "core/made.h"
#include "core/piece.h"
#include "core/pool.h"
#include "core/told.h"

#define MADE 0x4c6f6f6b41736964ULL

/* A list of any of the kit's structures: they differ by where they lie alone. */
typedef GENERAL_LOOKASIDE_POOL Lookaside;

/* A routine of the driver's own: a binary's list has a stub there that answers what was answered already (image/lists.c). */
#define IS_OWN(routine) ((routine) && !kz_is_stub((const void *)(uintptr_t)(routine)))

VOID KzInitializeLookaside(PVOID List, PALLOCATE_FUNCTION Allocate, PFREE_FUNCTION Free, POOL_TYPE Type, SIZE_T Size, ULONG Tag)
{
    KZ_INSIDE_OF(Type == PagedPool ? "ExInitializePagedLookasideList" : "ExInitializeNPagedLookasideList");
    kz_uses_own();
    kz_uses_bytes(List, sizeof(Lookaside), KZU_WRITES);
    kz_must_be_there(List, "a lookaside list", kz_me->place.call);
    kz_made(List, "a lookaside list", "ExInitializeNPagedLookasideList", "ExDeleteNPagedLookasideList");
    *(Lookaside *)List = (Lookaside){.Size = (ULONG)Size, .Tag = Tag, .Type = Type, .Allocate = Allocate, .Free = Free, .Initialized = MADE};
}

static bool is_made(const Lookaside *list, const char *call, const void *from)
{
    KZ_INSIDE_FROM(call, from);
    kz_uses_little();
    if (list->Initialized != MADE)
        kz_tell(KZM_NO_LOOKASIDE, call, "a lookaside list that wasn't initialized, or was deleted");
    return list->Initialized == MADE;
}

static void note_lookaside(PVOID memory, const Lookaside *list)
{
    KZ_INSIDE();
    KzPiece *piece = memory ? kz_piece_of(memory) : NULL;
    if (piece)
        piece->lookaside = list;
}

/* An entry goes back to the list that it is of. */
static void check_lookaside(PVOID memory, const Lookaside *list, const char *call)
{
    KZ_INSIDE();
    KzPiece *piece = kz_piece_of(memory);
    if (piece && piece->lookaside != list)
        kz_tell_of(memory, KZM_NO_LOOKASIDE, call, "%llu bytes that aren't this list's: its entries have %u", (unsigned long long)piece->size, list->Size);
}

PVOID KzAllocateFromLookaside(PVOID List, PCSTR Call)
{
    Lookaside *list = List;
    if (!is_made(list, Call, KZ_CALLER()))
        return NULL;
    __atomic_add_fetch(&list->TotalAllocates, 1, __ATOMIC_RELAXED);
    if (IS_OWN(list->Allocate))
        return KZ_CALL_DRIVER(list->Allocate, list->Type, list->Size, list->Tag);
    KZ_INSIDE_OF(Call);
    kz_uses_little();
    PVOID memory = ExAllocatePoolWithTag(list->Type, list->Size, list->Tag);
    note_lookaside(memory, list);
    return memory;
}

VOID KzFreeToLookaside(PVOID List, PVOID Entry, PCSTR Call)
{
    Lookaside *list = List;
    if (!is_made(list, Call, KZ_CALLER()))
        return;
    __atomic_add_fetch(&list->TotalFrees, 1, __ATOMIC_RELAXED);
    if (IS_OWN(list->Free)) {
        KZ_CALL_DRIVER(list->Free, Entry);
        return;
    }
    KZ_INSIDE_OF(Call);
    kz_uses_little();
    if (!IS_OWN(list->Allocate))
        check_lookaside(Entry, list, Call);
    kz_free_pool(Entry, Call);
}

VOID KzDeleteLookaside(PVOID List)
{
    Lookaside *list = List;
    KZ_CALL_OF("ExDeleteNPagedLookasideList");
    if (!is_made(list, "ExDeleteNPagedLookasideList", KZ_CALLER()))
        return;
    list->Initialized = 0;
    kz_unmade(list);
}
