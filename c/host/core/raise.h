/* Exceptions in drivers whose source was compiled here: who raises them, and the try blocks that take them. */
#ifndef KZ_CORE_RAISE_H
#define KZ_CORE_RAISE_H

#include "host.h"

/* For the driver, in whose code it comes back there: the innermost try block that takes it goes on. Where none does the system stops. */
_Noreturn void kz_raise_for(const char *call, NTSTATUS status, const void *from);
/* A signal's handler asks: whether the driver has a try block, and its thread goes on with raising what the processor refused. */
bool kz_takes_fault(int signal, const void *information, void *context);

#endif
