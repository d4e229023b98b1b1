/* The end of a transaction: each step of it is told to the filters that enlisted in it. */
#ifndef KZ_MANAGER_TRANSACTION_H
#define KZ_MANAGER_TRANSACTION_H

#include "host.h"
#include "core/transaction.h"

/* STATUS_SUCCESS; or what a filter made of a commit. */
NTSTATUS kz_end_transaction(PKTRANSACTION transaction, bool is_committed);

#endif
