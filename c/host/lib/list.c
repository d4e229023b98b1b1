/* Lists and numbers that the kit changes under a spin lock. */
#include "core/client.h"

PLIST_ENTRY ExInterlockedInsertHeadList(PLIST_ENTRY ListHead, PLIST_ENTRY ListEntry, PKSPIN_LOCK Lock)
{
    KZ_CALL();
    kz_acts_as_driver();
    KzTake(Lock, KZ_ALONE, DISPATCH_LEVEL, __func__);
    PLIST_ENTRY first = IsListEmpty(ListHead) ? NULL : ListHead->Flink;
    InsertHeadList(ListHead, ListEntry);
    KzLetGo(Lock, __func__);
    return first;
}

PLIST_ENTRY ExInterlockedInsertTailList(PLIST_ENTRY ListHead, PLIST_ENTRY ListEntry, PKSPIN_LOCK Lock)
{
    KZ_CALL();
    kz_acts_as_driver();
    KzTake(Lock, KZ_ALONE, DISPATCH_LEVEL, __func__);
    PLIST_ENTRY last = IsListEmpty(ListHead) ? NULL : ListHead->Blink;
    InsertTailList(ListHead, ListEntry);
    KzLetGo(Lock, __func__);
    return last;
}

PLIST_ENTRY ExInterlockedRemoveHeadList(PLIST_ENTRY ListHead, PKSPIN_LOCK Lock)
{
    KZ_CALL();
    kz_acts_as_driver();
    KzTake(Lock, KZ_ALONE, DISPATCH_LEVEL, __func__);
    PLIST_ENTRY first = IsListEmpty(ListHead) ? NULL : RemoveHeadList(ListHead);
    KzLetGo(Lock, __func__);
    return first;
}

PSINGLE_LIST_ENTRY ExInterlockedPushEntryList(PSINGLE_LIST_ENTRY ListHead, PSINGLE_LIST_ENTRY ListEntry, PKSPIN_LOCK Lock)
{
    KZ_CALL();
    kz_acts_as_driver();
    KzTake(Lock, KZ_ALONE, DISPATCH_LEVEL, __func__);
    PSINGLE_LIST_ENTRY first = ListHead->Next;
    PushEntryList(ListHead, ListEntry);
    KzLetGo(Lock, __func__);
    return first;
}

PSINGLE_LIST_ENTRY ExInterlockedPopEntryList(PSINGLE_LIST_ENTRY ListHead, PKSPIN_LOCK Lock)
{
    KZ_CALL();
    kz_acts_as_driver();
    KzTake(Lock, KZ_ALONE, DISPATCH_LEVEL, __func__);
    PSINGLE_LIST_ENTRY first = PopEntryList(ListHead);
    KzLetGo(Lock, __func__);
    return first;
}

LARGE_INTEGER ExInterlockedAddLargeInteger(PLARGE_INTEGER Addend, LARGE_INTEGER Increment, PKSPIN_LOCK Lock)
{
    KZ_CALL();
    kz_acts_as_driver();
    KzTake(Lock, KZ_ALONE, DISPATCH_LEVEL, __func__);
    LARGE_INTEGER before = *Addend;
    Addend->QuadPart += Increment.QuadPart;
    KzLetGo(Lock, __func__);
    return before;
}
