/* Extra create parameters: a list of them goes along with a create that a driver makes, or that it puts one into on its way down. Those of clients have none. */
#include "kit/ecp.h"

#include "core/client.h"
#include "core/extra.h"
#include "core/module.h"
#include "core/op.h"
#include "core/piece.h"
#include "core/place.h"
#include "core/state.h"
#include "manager/operation.h"

enum { TAG = 'pcEI' };

static KzExtra *parameter_of(PVOID context)
{
    return (KzExtra *)((PUCHAR)context - KZ_EXTRA_HEAD);
}

static PVOID context_of(KzExtra *parameter)
{
    return (PUCHAR)parameter + KZ_EXTRA_HEAD;
}

/* ---- Making them. */
NTSTATUS FltAllocateExtraCreateParameterList(PFLT_FILTER Filter, FSRTL_ALLOCATE_ECPLIST_FLAGS Flags, PECP_LIST *EcpList)
{
    KZ_INSIDE_ALONE();
    kz_gives(EcpList);
    (void)Filter, (void)Flags;
    *EcpList = ExAllocatePoolZero(PagedPool, sizeof **EcpList, TAG);
    return *EcpList ? STATUS_SUCCESS : STATUS_INSUFFICIENT_RESOURCES;
}

NTSTATUS FltAllocateExtraCreateParameter(PFLT_FILTER Filter, LPCGUID EcpType, ULONG SizeOfContext, FSRTL_ALLOCATE_ECP_FLAGS Flags,
                                         PFSRTL_EXTRA_CREATE_PARAMETER_CLEANUP_CALLBACK CleanupCallback, ULONG PoolTag, PVOID *EcpContext)
{
    KZ_INSIDE_ALONE();
    kz_gives(EcpContext);
    (void)Filter, (void)Flags;
    KzExtra *made = ExAllocatePoolZero(PagedPool, KZ_EXTRA_HEAD + SizeOfContext, PoolTag);
    *EcpContext = made ? context_of(made) : NULL;
    if (!made)
        return STATUS_INSUFFICIENT_RESOURCES;
    *made = (KzExtra){.type = *EcpType, .size = SizeOfContext, .cleanup = CleanupCallback, .filter = kz_me->place.filter};
    return STATUS_SUCCESS;
}

static void free_parameter(KzExtra *parameter)
{
    if (parameter->cleanup) {
        KzPlace before = kz_enter(KZ_IN_CLEANUP, kz_worker(), parameter->filter, NULL, NULL, NULL);
        unsigned depth = kz_let_driver("cleanup", (PVOID)parameter->cleanup);
        KZ_CALL_DRIVER(parameter->cleanup, context_of(parameter), &parameter->type);
        kz_driver_returned(depth, "cleanup returns");
        kz_leave(before);
    }
    ExFreePool(parameter);
}

VOID FltFreeExtraCreateParameter(PFLT_FILTER Filter, PVOID EcpContext)
{
    KZ_INSIDE_ALONE();
    kz_uses_object(EcpContext, KZU_WRITES);
    (void)Filter;
    free_parameter(parameter_of(EcpContext));
}

static void free_list(PECP_LIST list)
{
    while (list->first) {
        KzExtra *one = list->first;
        list->first = one->next;
        free_parameter(one);
    }
    ExFreePool(list);
}

VOID FltFreeExtraCreateParameterList(PFLT_FILTER Filter, PECP_LIST EcpList)
{
    KZ_INSIDE_ALONE();
    kz_uses_object(EcpList, KZU_WRITES);
    (void)Filter;
    free_list(EcpList);
}

/* ---- Lists. */
NTSTATUS FltInsertExtraCreateParameter(PFLT_FILTER Filter, PECP_LIST EcpList, PVOID EcpContext)
{
    KZ_INSIDE_ALONE();
    kz_uses_object(EcpList, KZU_WRITES);
    kz_uses_object(EcpContext, KZU_WRITES);
    (void)Filter;
    KzExtra *one = parameter_of(EcpContext), **at = kz_place_of_extra(EcpList, &one->type);
    if (one->list || *at)
        return STATUS_INVALID_PARAMETER;
    one->list = EcpList;
    *at = one;
    return STATUS_SUCCESS;
}

static NTSTATUS give(KzExtra *one, PVOID *context, ULONG *size)
{
    if (!one)
        return STATUS_NOT_FOUND;
    if (context)
        *context = context_of(one);
    if (size)
        *size = one->size;
    return STATUS_SUCCESS;
}

NTSTATUS FltFindExtraCreateParameter(PFLT_FILTER Filter, PECP_LIST EcpList, const GUID *EcpType, PVOID *EcpContext, ULONG *EcpContextSize)
{
    KZ_INSIDE_ALONE();
    kz_uses_object(EcpList, KZU_READS);
    kz_gives(EcpContext);
    kz_gives(EcpContextSize);
    (void)Filter;
    return give(*kz_place_of_extra(EcpList, EcpType), EcpContext, EcpContextSize);
}

NTSTATUS FltRemoveExtraCreateParameter(PFLT_FILTER Filter, PECP_LIST EcpList, LPCGUID EcpType, PVOID *EcpContext, ULONG *EcpContextSize)
{
    KZ_INSIDE_ALONE();
    kz_uses_object(EcpList, KZU_WRITES);
    kz_gives(EcpContext);
    kz_gives(EcpContextSize);
    (void)Filter;
    KzExtra **at = kz_place_of_extra(EcpList, EcpType), *one = *at;
    if (one) {
        *at = one->next;
        one->next = NULL;
        one->list = NULL;
    }
    return give(one, EcpContext, EcpContextSize);
}

NTSTATUS FltGetNextExtraCreateParameter(PFLT_FILTER Filter, PECP_LIST EcpList, PVOID CurrentEcpContext, LPGUID NextEcpType, PVOID *NextEcpContext, ULONG *NextEcpContextSize)
{
    KZ_INSIDE_ALONE();
    kz_uses_object(EcpList, KZU_READS);
    kz_gives(NextEcpType);
    kz_gives(NextEcpContext);
    kz_gives(NextEcpContextSize);
    (void)Filter;
    KzExtra *next = CurrentEcpContext ? parameter_of(CurrentEcpContext)->next : EcpList->first;
    if (next && NextEcpType)
        *NextEcpType = next->type;
    return give(next, NextEcpContext, NextEcpContextSize);
}

VOID FltAcknowledgeEcp(PFLT_FILTER Filter, PVOID EcpContext)
{
    KZ_INSIDE_ALONE();
    kz_uses_object(EcpContext, KZU_WRITES);
    (void)Filter;
    parameter_of(EcpContext)->is_acknowledged = TRUE;
}

BOOLEAN FltIsEcpAcknowledged(PFLT_FILTER Filter, PVOID EcpContext)
{
    KZ_INSIDE_ALONE();
    kz_uses_object(EcpContext, KZU_READS);
    (void)Filter;
    return parameter_of(EcpContext)->is_acknowledged;
}

/* A program has no call that gives one along. */
BOOLEAN FltIsEcpFromUserMode(PFLT_FILTER Filter, PVOID EcpContext)
{
    (void)Filter, (void)EcpContext;
    return FALSE;
}

/* ---- Those of a create. A list that is put into it is the I/O manager's, which frees it once the create is over. */
NTSTATUS FltGetEcpListFromCallbackData(PFLT_FILTER Filter, PFLT_CALLBACK_DATA CallbackData, PECP_LIST *EcpList)
{
    KZ_INSIDE_ALONE();
    kz_uses_object(kz_op_with(CallbackData), KZU_READS);
    kz_gives(EcpList);
    (void)Filter;
    KzOp *op = kz_op_with(CallbackData);
    *EcpList = NULL;
    if (!op || op->event != KZE_CREATE)
        return STATUS_INVALID_PARAMETER;
    *EcpList = op->ecps ? op->ecps : op->own.ecps;
    return STATUS_SUCCESS;
}

/* Its filter may be gone before the create is over. */
static void adopt(PECP_LIST list)
{
    if (kz_piece_of(list))
        kz_piece_of(list)->filter = NULL;
    for (KzExtra *one = list->first; one; one = one->next)
        if (kz_piece_of(one))
            kz_piece_of(one)->filter = NULL;
}

NTSTATUS FltSetEcpListIntoCallbackData(PFLT_FILTER Filter, PFLT_CALLBACK_DATA CallbackData, PECP_LIST EcpList)
{
    KZ_INSIDE_ALONE();
    kz_uses_object(kz_op_with(CallbackData), KZU_WRITES);
    (void)Filter;
    KzOp *op = kz_op_with(CallbackData);
    if (!op || op->event != KZE_CREATE || op->ecps || op->own.ecps)
        return STATUS_INVALID_PARAMETER;
    adopt(EcpList);
    op->ecps = EcpList;
    return STATUS_SUCCESS;
}

static void free_ecps(KzOp *op)
{
    if (op->ecps)
        free_list(op->ecps);
    op->ecps = NULL;
}

const KzModule kz_ecp_module = {.operation_ends = free_ecps};
