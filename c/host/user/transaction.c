/* Transactions of a program: each is an object of its process, as CreateTransaction makes it. */
#include "user/transaction.h"

#include "core/client.h"
#include "filesystem/version.h"
#include "manager/transaction.h"
#include "user/error.h"
#include "user/object.h"
#include "user/program.h"

void *CreateTransaction(const void *attributes, const void *unit, uint32_t options, uint32_t level, uint32_t flags, uint32_t timeout, const WCHAR *description);
void *CreateTransaction(const void *attributes, const void *unit, uint32_t options, uint32_t level, uint32_t flags, uint32_t timeout, const WCHAR *description)
{
    (void)attributes, (void)unit, (void)options, (void)level, (void)flags, (void)timeout, (void)description;
    KZ_CALL();
    KzObject *object = kz_new_object(KZU_TRANSACTION);
    object->transaction = kz_begin_transaction("");
    return object;
}

void kz_leave_transaction(PKTRANSACTION transaction)
{
    if (transaction->step == KZ_IS_ACTIVE)
        kz_end_transaction(transaction, false);
}

static int end(const void *handle, bool is_committed, const char *call)
{
    int is_right = 0;
    {
        KZ_CALL_OF(call);
        KzObject *object = kz_object(handle, KZU_TRANSACTION);
        bool is_active = object && object->transaction->step == KZ_IS_ACTIVE;
        NTSTATUS status = is_active ? kz_end_transaction(object->transaction, is_committed) : STATUS_TRANSACTION_NOT_ACTIVE;
        is_right = NT_SUCCESS(status) ? 1 : object ? kz_failed(kz_win32_of(status)) : 0;
    }
    kz_go_on_or_end();
    return is_right;
}

int CommitTransaction(void *handle);
int CommitTransaction(void *handle)
{
    return end(handle, true, __func__);
}

int RollbackTransaction(void *handle);
int RollbackTransaction(void *handle)
{
    return end(handle, false, __func__);
}
