/* What the kit answers a driver's call. */
#ifndef KZ_CORE_RESULT_H
#define KZ_CORE_RESULT_H

#include "host.h"

/* A driver's call has begun, with that frame behind it: what it answers is looked at by who looks on (core/module.h), if that is asked for. */
void kz_watch_answer(const void *frame, const char *call, const void *from);
/* Where a call that is watched returns to; what comes inside in it once more has it as its caller. */
extern const char kz_answered[];

#endif
