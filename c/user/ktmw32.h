/* Transactions of a program. */
#ifndef KZ_KTMW32_H
#define KZ_KTMW32_H

#include <windows.h>

#ifdef __cplusplus
extern "C" {
#endif

#define TRANSACTION_DO_NOT_PROMOTE 0x00000001
HANDLE CreateTransaction(LPSECURITY_ATTRIBUTES Attributes, LPGUID UnitOfWork, DWORD Options, DWORD IsolationLevel, DWORD IsolationFlags, DWORD Timeout, LPWSTR Description);
BOOL CommitTransaction(HANDLE Transaction);
BOOL RollbackTransaction(HANDLE Transaction);

#ifdef __cplusplus
}
#endif

#endif
