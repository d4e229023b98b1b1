/* Lookaside lists. The kit's headers take from a list and give back to it by themselves, and call nobody while it has entries and room. A list here never has an entry, and has room for one:
 * so each taking comes to the call that pops an entry, each giving back to the one that pushes it, and the host's own list does the rest. */
#include "image/calls.h"
#include "image/point.h"
#include "core/made.h"

typedef GENERAL_LOOKASIDE_POOL Lookaside;

/* Where nothing could be popped, the headers ask the list's own routine: the host has asked already. */
KZ_STUB(PVOID, LookasideIsRefused, POOL_TYPE type, SIZE_T size, ULONG tag)
{
    (void)type, (void)size, (void)tag;
    return NULL;
}

/* Those that there are, as far as there is room. */
enum { MOST = 256 };
static const Lookaside *lists[MOST];
static size_t lists_count;

bool kz_is_in_list(uint64_t address)
{
    for (size_t at = 0; at < lists_count; at++)
        if (address - (uintptr_t)lists[at] < sizeof *lists[at])
            return true;
    return false;
}

static void forget(const void *list)
{
    for (size_t at = 0; at < lists_count; at++)
        if (lists[at] == list) {
            lists[at] = lists[--lists_count];
            return;
        }
}

static void make(Lookaside *list)
{
    forget(list);
    if (lists_count < MOST)
        lists[lists_count++] = list;
    list->Depth = 1;
    if (!list->Allocate)
        list->Allocate = (PALLOCATE_FUNCTION)kz_stub_LookasideIsRefused;
}

KZ_STUB(VOID, ExInitializeNPagedLookasideList, PNPAGED_LOOKASIDE_LIST list, PALLOCATE_FUNCTION allocate, PFREE_FUNCTION release, ULONG flags, SIZE_T size, ULONG tag, USHORT depth)
{
    KZ_FROM();
    ExInitializeNPagedLookasideList(list, allocate, release, flags, size, tag, depth);
    make((Lookaside *)&list->L);
}

KZ_STUB(VOID, ExInitializePagedLookasideList, PPAGED_LOOKASIDE_LIST list, PALLOCATE_FUNCTION allocate, PFREE_FUNCTION release, ULONG flags, SIZE_T size, ULONG tag, USHORT depth)
{
    KZ_FROM();
    ExInitializePagedLookasideList(list, allocate, release, flags, size, tag, depth);
    make((Lookaside *)&list->L);
}

/* Its routines get the list too, which those of other lists don't: the host calls none of them. */
KZ_STUB(NTSTATUS, ExInitializeLookasideListEx, PLOOKASIDE_LIST_EX list, PVOID allocate, PVOID release, POOL_TYPE type, ULONG flags, SIZE_T size, ULONG tag, USHORT depth)
{
    KZ_FROM();
    NTSTATUS status = ExInitializeLookasideListEx(list, allocate, release, type, flags, size, tag, depth);
    make((Lookaside *)&list->L);
    return status;
}

KZ_STUB(VOID, ExDeleteNPagedLookasideList, PNPAGED_LOOKASIDE_LIST list)
{
    KZ_FROM();
    forget(&list->L);
    ExDeleteNPagedLookasideList(list);
}

KZ_STUB(VOID, ExDeletePagedLookasideList, PPAGED_LOOKASIDE_LIST list)
{
    KZ_FROM();
    forget(&list->L);
    ExDeletePagedLookasideList(list);
}

KZ_STUB(VOID, ExDeleteLookasideListEx, PLOOKASIDE_LIST_EX list)
{
    KZ_FROM();
    forget(&list->L);
    ExDeleteLookasideListEx(list);
}

/* ---- The calls that the headers make, of these lists and of the driver's own. */
static bool is_lookaside(PSLIST_HEADER head)
{
    return kz_has_made(head);
}

KZ_STUB(PSLIST_ENTRY, ExpInterlockedPopEntrySList, PSLIST_HEADER head)
{
    KZ_FROM();
    Lookaside *list = (Lookaside *)head;
    if (!is_lookaside(head))
        return InterlockedPopEntrySList(head);
    if (!kz_is_stub((const void *)(uintptr_t)list->Allocate))
        return NULL; /* its own routine is called by the headers */
    list->TotalAllocates--; /* which the headers counted */
    return KzAllocateFromLookaside(list, list->Type == PagedPool ? "ExAllocateFromPagedLookasideList" : "ExAllocateFromNPagedLookasideList");
}

KZ_STUB(PSLIST_ENTRY, ExpInterlockedPushEntrySList, PSLIST_HEADER head, PSLIST_ENTRY entry)
{
    KZ_FROM();
    Lookaside *list = (Lookaside *)head;
    if (!is_lookaside(head))
        return InterlockedPushEntrySList(head, entry);
    list->TotalFrees--;
    KzFreeToLookaside(list, entry, list->Type == PagedPool ? "ExFreeToPagedLookasideList" : "ExFreeToNPagedLookasideList");
    return NULL;
}

KZ_STUB(PSLIST_ENTRY, ExpInterlockedFlushSList, PSLIST_HEADER head)
{
    KZ_FROM();
    return InterlockedFlushSList(head);
}
