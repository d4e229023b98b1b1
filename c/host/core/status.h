/* The manager's statuses as the kit's, both ways. */
#ifndef KZ_CORE_STATUS_H
#define KZ_CORE_STATUS_H

#include "host.h"

NTSTATUS kz_ntstatus(uint32_t number);
uint32_t kz_number(NTSTATUS status, bool *is_exact);

#endif
