/* Acts over memory: cells, pools that are used again, lists. */
#include "drawn.h"

typedef struct _ENTRY {
    union {
        LIST_ENTRY Links;
        SLIST_ENTRY Single;
    };
    ULONG Number;
} ENTRY, *PENTRY;

static PVOID volatile gPool;
static NPAGED_LOOKASIDE_LIST gLookaside;
static LIST_ENTRY gList;
static KSPIN_LOCK gListLock;
static SLIST_HEADER gStack;

static VOID Write(PRUN Run, UCHAR X) { gDrawn.Cells[X] = (LONG)Run->Number + 1; }
static VOID Look(PRUN Run, UCHAR X) { See(Run, (ULONG)gDrawn.Cells[X]); }
static VOID Count(PRUN Run, UCHAR X) { See(Run, (ULONG)InterlockedIncrement(&gDrawn.Cells[X])); }
static VOID SkipIf(PRUN Run, UCHAR X) { Run->Skips = gDrawn.Cells[X] != 0; }
static VOID LookPlainly(PRUN Run, UCHAR X) { UNREFERENCED_PARAMETER(X); See(Run, (ULONG)gDrawn.Plain); }

static VOID TakeOrGive(PRUN Run, UCHAR X)
{
    PULONG pool = InterlockedExchangePointer((PVOID volatile *)&gPool, NULL);

    UNREFERENCED_PARAMETER(X);
    if (pool == NULL) {
        pool = ExAllocatePoolZero(NonPagedPool, 16, TAG);
        if (pool == NULL) {
            return;
        }
        *pool = Run->Number + 1;
        pool = InterlockedExchangePointer((PVOID volatile *)&gPool, pool);
    }
    if (pool != NULL) {
        See(Run, *pool);
        ExFreePoolWithTag(pool, TAG);
    }
}

static VOID UsePool(PRUN Run, UCHAR X)
{
    PULONG pool = ExAllocatePoolZero(NonPagedPool, 16 << X, TAG);

    if (pool != NULL) {
        *pool = Run->Number;
        See(Run, *pool);
        ExFreePoolWithTag(pool, TAG);
    }
}

static VOID UseLookaside(PRUN Run, UCHAR X)
{
    PULONG entry = ExAllocateFromNPagedLookasideList(&gLookaside);

    if (entry != NULL) {
        *entry = X;
        See(Run, *entry);
        ExFreeToNPagedLookasideList(&gLookaside, entry);
    }
}


static PENTRY NewEntry(PRUN Run)
{
    PENTRY entry = ExAllocatePoolZero(NonPagedPool, sizeof(ENTRY), TAG);

    if (entry != NULL) {
        entry->Number = Run->Number + 1;
    }
    return entry;
}

static VOID SeeEntry(PRUN Run, PENTRY Entry)
{
    See(Run, Entry == NULL ? 0 : Entry->Number);
    if (Entry != NULL) {
        ExFreePoolWithTag(Entry, TAG);
    }
}

static VOID Append(PRUN Run, UCHAR X)
{
    PENTRY entry = NewEntry(Run);

    if (entry != NULL) {
        See(Run, (X & 1 ? ExInterlockedInsertHeadList : ExInterlockedInsertTailList)(&gList, &entry->Links, &gListLock) == NULL);
    }
}

static VOID TakeFirst(PRUN Run, UCHAR X)
{
    PLIST_ENTRY links = ExInterlockedRemoveHeadList(&gList, &gListLock);

    UNREFERENCED_PARAMETER(X);
    SeeEntry(Run, links == NULL ? NULL : CONTAINING_RECORD(links, ENTRY, Links));
}

static VOID Push(PRUN Run, UCHAR X)
{
    PENTRY entry = NewEntry(Run);

    UNREFERENCED_PARAMETER(X);
    if (entry != NULL) {
        See(Run, InterlockedPushEntrySList(&gStack, &entry->Single) == NULL);
    }
}

static VOID Pop(PRUN Run, UCHAR X)
{
    PSLIST_ENTRY single = InterlockedPopEntrySList(&gStack);

    UNREFERENCED_PARAMETER(X);
    SeeEntry(Run, single == NULL ? NULL : CONTAINING_RECORD(single, ENTRY, Single));
}

VOID BeginMemory(VOID)
{
    ExInitializeNPagedLookasideList(&gLookaside, NULL, NULL, 0, 16, TAG, 0);
    InitializeListHead(&gList);
    KeInitializeSpinLock(&gListLock);
    InitializeSListHead(&gStack);
}

VOID EndMemory(VOID)
{
    RUN run = {.Seen = 7};

    if (gPool != NULL) {
        ExFreePoolWithTag(gPool, TAG);
    }
    while (!IsListEmpty(&gList)) {
        TakeFirst(&run, 0);
    }
    while (QueryDepthSList(&gStack) != 0) {
        Pop(&run, 0);
    }
    ExDeleteNPagedLookasideList(&gLookaside);
}

static const ACT Acts[] = {{'a', Write}, {'b', Look}, {'c', Count}, {'d', SkipIf}, {'e', LookPlainly}, {'f', TakeOrGive}, {'g', UsePool}, {'h', UseLookaside}, {'0', Append}, {'1', TakeFirst}, {'2', Push}, {'3', Pop}};
const ACTS gMemoryActs = {ARRAYSIZE(Acts), Acts};
