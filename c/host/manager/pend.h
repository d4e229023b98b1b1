/* Operations that a filter holds go on: it completes what it pended, in any order and from anywhere. */
#ifndef KZ_MANAGER_PEND_H
#define KZ_MANAGER_PEND_H

#include "host.h"

void kz_resume(KzOp *op); /* pend.c: it goes on, by its runner or by whoever comes to it */

#endif
