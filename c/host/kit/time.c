/* The time that a driver asks for. */
#include "core/client.h"
#include "core/clock.h"

VOID KeQuerySystemTime(PLARGE_INTEGER CurrentTime)
{
    KZ_INSIDE_ALONE();
    kz_gives(CurrentTime);
    CurrentTime->QuadPart = kz_time();
}

ULONGLONG KeQueryInterruptTime(VOID)
{
    KZ_INSIDE_ALONE();
    return (ULONGLONG)kz.passed;
}

VOID KeQueryTickCount(PLARGE_INTEGER CurrentCount)
{
    KZ_INSIDE_ALONE();
    kz_gives(CurrentCount);
    CurrentCount->QuadPart = kz.passed / (LONGLONG)KeQueryTimeIncrement();
}

/* A tick of the clock, as usual PCs have it. */
ULONG KeQueryTimeIncrement(VOID)
{
    return 156250;
}

LARGE_INTEGER KeQueryPerformanceCounter(PLARGE_INTEGER PerformanceFrequency)
{
    KZ_INSIDE_ALONE();
    kz_gives(PerformanceFrequency);
    if (PerformanceFrequency)
        PerformanceFrequency->QuadPart = 10000000;
    return (LARGE_INTEGER){.QuadPart = kz.passed};
}
