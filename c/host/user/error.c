/* The kit's statuses as a program sees them. */
#include "user/error.h"

enum { MR_MID_NOT_FOUND = 317 };

uint32_t kz_win32_of(NTSTATUS status)
{
    uint32_t error = RtlNtStatusToDosError(status);
    return error == MR_MID_NOT_FOUND && NT_SUCCESS(status) ? 0 : error;
}

/* Those of the filter manager have a facility of their own, in both. */
int32_t kz_hresult_of(NTSTATUS status)
{
    if (((uint32_t)status & 0xffff0000) == 0xc01c0000)
        return (int32_t)(0x801f0000 | ((uint32_t)status & 0xffff));
    uint32_t error = kz_win32_of(status);
    return error ? (int32_t)(0x80070000 | error) : 0;
}
