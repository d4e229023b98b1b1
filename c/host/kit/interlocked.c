/* Lists that the kit changes in one piece, without a lock. */
#include "kit/interlocked.h"

#include "core/client.h"

/* Whoever uses it next comes behind this client. */
void kz_in_order_of(PVOID object)
{
    kz_scheduler->touch(object, 0, KZT_TAKES);
    kz_scheduler->touch(object, 0, KZT_GIVES);
}

VOID InitializeSListHead(PSLIST_HEADER ListHead)
{
    kz_uses_all();
    ListHead->Alignment[0] = ListHead->Alignment[1] = 0;
}

PSLIST_ENTRY InterlockedPushEntrySList(PSLIST_HEADER ListHead, PSLIST_ENTRY ListEntry)
{
    KZ_CALL();
    kz_in_order_of(ListHead);
    PSLIST_ENTRY first = ListHead->First;
    ListEntry->Next = first;
    ListHead->First = ListEntry;
    ListHead->Depth++;
    return first;
}

PSLIST_ENTRY InterlockedPopEntrySList(PSLIST_HEADER ListHead)
{
    KZ_CALL();
    kz_in_order_of(ListHead);
    PSLIST_ENTRY first = ListHead->First;
    if (first) {
        ListHead->First = first->Next;
        ListHead->Depth--;
    }
    return first;
}

PSLIST_ENTRY InterlockedFlushSList(PSLIST_HEADER ListHead)
{
    KZ_CALL();
    kz_in_order_of(ListHead);
    PSLIST_ENTRY first = ListHead->First;
    InitializeSListHead(ListHead);
    return first;
}

USHORT QueryDepthSList(PSLIST_HEADER ListHead)
{
    KZ_CALL();
    return (USHORT)ListHead->Depth;
}
