/* The kit's statuses as a program sees them: RtlNtStatusToDosError, as far as its calls answer them. */
#ifndef KZ_USER_ERROR_H
#define KZ_USER_ERROR_H

#include "host.h"

uint32_t kz_win32_of(NTSTATUS status);
int32_t kz_hresult_of(NTSTATUS status);

#endif
