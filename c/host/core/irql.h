/* IRQL: at which level each call of the kit may be made, from its documentation. */
#ifndef KZ_CORE_IRQL_H
#define KZ_CORE_IRQL_H

#include "host.h"

/* Whether the call may be made here. */
void kz_check_irql(const char *call);
void kz_may_be_called(const char *call, KIRQL most);

#endif
