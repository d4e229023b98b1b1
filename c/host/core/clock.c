/* The clock. It begins with a year, goes on by a millisecond for each request, and otherwise only where a test or a driver asks for it. */
#include "core/clock.h"

#include "core/module.h"

LONGLONG kz_first_time(void)
{
    return KZ_BEGINS;
}

LONGLONG kz_time(void)
{
    return KZ_BEGINS + kz.passed;
}

uint64_t kz_now(void)
{
    return (uint64_t)(kz.passed / KZ_MILLISECOND);
}

bool kz_pass_to_next(uint64_t until)
{
    return kz_passes((LONGLONG)until * KZ_MILLISECOND);
}

void kz_pass_units(LONGLONG units)
{
    LONGLONG until = kz.passed + units;
    while (kz_passes(until))
        ;
    if (until > kz.passed)
        kz.passed = until;
}

void kz_pass(uint64_t milliseconds)
{
    kz_pass_units((LONGLONG)milliseconds * KZ_MILLISECOND);
}

void kz_tick(void)
{
    kz.passed += KZ_MILLISECOND;
}

enum { FIRES = 16 };

void kz_begin_to_fire(void)
{
    kz.waiters++;
    kz.fires_left = FIRES;
}

void kz_end_to_fire(void)
{
    kz.waiters--;
}
