/* What is to fail. */
#ifndef KZ_RUN_FAILS_H
#define KZ_RUN_FAILS_H

#include "host.h"

/* The request `fail ..`; false if the words aren't understood. */
bool kz_fail(char **words);
bool kz_fails(KzChoice what);
/* A run begins with no call that is to fail. */
void kz_forget_fails(void);

#endif
