/* Tables of a driver's own elements, and bit maps. */
#include "host.h"

typedef struct Element {
    LIST_ENTRY links;
    uint8_t body[];
} Element;

static Element *element_of(PLIST_ENTRY links)
{
    return CONTAINING_RECORD(links, Element, links);
}

VOID RtlInitializeGenericTable(PRTL_GENERIC_TABLE Table, PRTL_GENERIC_COMPARE_ROUTINE CompareRoutine, PRTL_GENERIC_ALLOCATE_ROUTINE AllocateRoutine,
                               PRTL_GENERIC_FREE_ROUTINE FreeRoutine, PVOID TableContext)
{
    *Table = (RTL_GENERIC_TABLE){
        .CompareRoutine = CompareRoutine, .AllocateRoutine = AllocateRoutine, .FreeRoutine = FreeRoutine, .TableContext = TableContext};
    InitializeListHead(&Table->InsertOrderList);
}

/* The element, or else the one before which it belongs: the list is in order. */
static Element *find(PRTL_GENERIC_TABLE table, PVOID buffer, PLIST_ENTRY *place)
{
    PLIST_ENTRY at = table->InsertOrderList.Flink;
    for (; at != &table->InsertOrderList; at = at->Flink) {
        RTL_GENERIC_COMPARE_RESULTS said = KZ_CALL_DRIVER(table->CompareRoutine, table, buffer, element_of(at)->body);
        if (said == GenericEqual)
            return element_of(at);
        if (said == GenericLessThan)
            break;
    }
    *place = at;
    return NULL;
}

PVOID RtlInsertElementGenericTable(PRTL_GENERIC_TABLE Table, PVOID Buffer, CLONG BufferSize, PBOOLEAN NewElement)
{
    PLIST_ENTRY place = &Table->InsertOrderList;
    Element *found = find(Table, Buffer, &place);
    if (NewElement)
        *NewElement = !found;
    if (found)
        return found->body;
    Element *made = KZ_CALL_DRIVER(Table->AllocateRoutine, Table, (CLONG)(sizeof *made + BufferSize));
    if (!made) {
        if (NewElement)
            *NewElement = FALSE;
        return NULL;
    }
    memcpy(made->body, Buffer, BufferSize);
    InsertTailList(place, &made->links);
    Table->NumberGenericTableElements++;
    return made->body;
}

BOOLEAN RtlDeleteElementGenericTable(PRTL_GENERIC_TABLE Table, PVOID Buffer)
{
    PLIST_ENTRY place = &Table->InsertOrderList;
    Element *found = find(Table, Buffer, &place);
    if (!found)
        return FALSE;
    if (Table->OrderedPointer == found)
        Table->OrderedPointer = found->links.Blink == &Table->InsertOrderList ? NULL : element_of(found->links.Blink);
    RemoveEntryList(&found->links);
    Table->NumberGenericTableElements--;
    KZ_CALL_DRIVER(Table->FreeRoutine, Table, found);
    return TRUE;
}

PVOID RtlLookupElementGenericTable(PRTL_GENERIC_TABLE Table, PVOID Buffer)
{
    PLIST_ENTRY place = &Table->InsertOrderList;
    Element *found = find(Table, Buffer, &place);
    return found ? found->body : NULL;
}

PVOID RtlEnumerateGenericTableWithoutSplaying(PRTL_GENERIC_TABLE Table, PVOID *RestartKey)
{
    PLIST_ENTRY next = *RestartKey ? ((Element *)*RestartKey)->links.Flink : Table->InsertOrderList.Flink;
    if (next == &Table->InsertOrderList)
        return NULL;
    *RestartKey = element_of(next);
    return element_of(next)->body;
}

PVOID RtlEnumerateGenericTable(PRTL_GENERIC_TABLE Table, BOOLEAN Restart)
{
    if (Restart)
        Table->OrderedPointer = NULL;
    return RtlEnumerateGenericTableWithoutSplaying(Table, &Table->OrderedPointer);
}

PVOID RtlGetElementGenericTable(PRTL_GENERIC_TABLE Table, ULONG I)
{
    for (PLIST_ENTRY at = Table->InsertOrderList.Flink; at != &Table->InsertOrderList; at = at->Flink)
        if (I-- == 0)
            return element_of(at)->body;
    return NULL;
}

ULONG RtlNumberGenericTableElements(PRTL_GENERIC_TABLE Table)
{
    return Table->NumberGenericTableElements;
}

BOOLEAN RtlIsGenericTableEmpty(PRTL_GENERIC_TABLE Table)
{
    return Table->NumberGenericTableElements == 0;
}
