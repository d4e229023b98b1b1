/* Reparse points that a filter wants opened by themselves: it adds an entry with their tag to a create on its way down. */
#include "core/client.h"
#include "core/op.h"
#include "core/told.h"
#include "manager/operation.h"

static bool is_in(const LIST_ENTRY *head, const LIST_ENTRY *wanted)
{
    for (const LIST_ENTRY *one = head->Flink; one && one != head; one = one->Flink)
        if (one == wanted)
            return true;
    return false;
}

NTSTATUS FltAddOpenReparseEntry(PFLT_FILTER Filter, PFLT_CALLBACK_DATA Data, POPEN_REPARSE_LIST_ENTRY OpenReparseEntry)
{
    KZ_INSIDE_ALONE();
    (void)Filter;
    KzOp *op = kz_op_with(Data);
    kz_scheduler->uses(op, KZU_WRITES);
    kz_uses_object(OpenReparseEntry, KZU_WRITES);
    if (!op || op->event != KZE_CREATE)
        return STATUS_INVALID_PARAMETER;
    if (OpenReparseEntry->Flags)
        kz_tell(KZM_REPARSE, __func__, "flags of an entry aren't modelled: each point with its tag is opened by itself");
    if (!op->opens.Flink)
        InitializeListHead(&op->opens);
    InsertTailList(&op->opens, &OpenReparseEntry->OpenReparseListEntry);
    return STATUS_SUCCESS;
}

NTSTATUS FltRemoveOpenReparseEntry(PFLT_FILTER Filter, PFLT_CALLBACK_DATA Data, POPEN_REPARSE_LIST_ENTRY OpenReparseEntry)
{
    KZ_INSIDE_ALONE();
    (void)Filter;
    KzOp *op = kz_op_with(Data);
    kz_scheduler->uses(op, KZU_WRITES);
    kz_uses_object(OpenReparseEntry, KZU_WRITES);
    if (!op || !is_in(&op->opens, &OpenReparseEntry->OpenReparseListEntry))
        return STATUS_NOT_FOUND;
    RemoveEntryList(&OpenReparseEntry->OpenReparseListEntry);
    return STATUS_SUCCESS;
}
