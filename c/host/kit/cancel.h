/* Cancelling: a request's own, or that of a process that ends. */
#ifndef KZ_KIT_CANCEL_H
#define KZ_KIT_CANCEL_H

#include "host.h"

uint32_t kz_cancel(bool is_first, uint64_t number);
void kz_cancel_of(uint64_t process);
void kz_cancel_op(KzOp *op);

#endif
