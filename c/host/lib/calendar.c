/* Dates: days of the Gregorian calendar since 1601. */
#include "core/clock.h"

VOID ExSystemTimeToLocalTime(PLARGE_INTEGER SystemTime, PLARGE_INTEGER LocalTime)
{
    *LocalTime = *SystemTime;
}

VOID ExLocalTimeToSystemTime(PLARGE_INTEGER LocalTime, PLARGE_INTEGER SystemTime)
{
    *SystemTime = *LocalTime;
}

/* Days since 1601 of a date of the Gregorian calendar. */
static LONGLONG days_before(int year, int month, int day)
{
    LONGLONG y = month <= 2 ? year - 1 : year, shifted = (month + 9) % 12;
    return y * 365 + y / 4 - y / 100 + y / 400 + (shifted * 306 + 5) / 10 + day - 1 - 584694;
}

VOID RtlTimeToTimeFields(PLARGE_INTEGER Time, PTIME_FIELDS TimeFields)
{
    LONGLONG milliseconds = Time->QuadPart / KZ_MILLISECOND, days = milliseconds / 86400000, rest = milliseconds % 86400000;
    int year = (int)(1601 + days / 366), month = 1;
    while (days_before(year + 1, 1, 1) <= days)
        year++;
    while (month < 12 && days_before(year, month + 1, 1) <= days)
        month++;
    *TimeFields = (TIME_FIELDS){(CSHORT)year,
                                (CSHORT)month,
                                (CSHORT)(days - days_before(year, month, 1) + 1),
                                (CSHORT)(rest / 3600000),
                                (CSHORT)(rest / 60000 % 60),
                                (CSHORT)(rest / 1000 % 60),
                                (CSHORT)(rest % 1000),
                                (CSHORT)((days + 1) % 7)};
}

BOOLEAN RtlTimeFieldsToTime(PTIME_FIELDS TimeFields, PLARGE_INTEGER Time)
{
    if (TimeFields->Year < 1601 || TimeFields->Month < 1 || TimeFields->Month > 12 || TimeFields->Day < 1 || TimeFields->Day > 31)
        return FALSE;
    LONGLONG days = days_before(TimeFields->Year, TimeFields->Month, TimeFields->Day);
    Time->QuadPart =
        (((days * 24 + TimeFields->Hour) * 60 + TimeFields->Minute) * 60 + TimeFields->Second) * 10000000 + TimeFields->Milliseconds * KZ_MILLISECOND;
    return TRUE;
}
