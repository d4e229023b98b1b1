/* Transactions of a program. */
#ifndef KZ_USER_TRANSACTION_H
#define KZ_USER_TRANSACTION_H

#include "host.h"

/* Its handle is closed: one that isn't committed by then is rolled back. */
void kz_leave_transaction(PKTRANSACTION transaction);

#endif
