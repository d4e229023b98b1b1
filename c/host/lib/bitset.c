/* Bit maps. */
#include "host.h"

static const ULONG nowhere = 0xffffffff;

VOID RtlInitializeBitMap(PRTL_BITMAP BitMapHeader, PULONG BitMapBuffer, ULONG SizeOfBitMap)
{
    *BitMapHeader = (RTL_BITMAP){SizeOfBitMap, BitMapBuffer};
}

static void put_bits(PRTL_BITMAP map, ULONG start, ULONG count, bool is_set)
{
    for (ULONG at = start; at - start < count && at < map->SizeOfBitMap; at++)
        if (is_set)
            map->Buffer[at / 32] |= 1u << at % 32;
        else
            map->Buffer[at / 32] &= ~(1u << at % 32);
}

/* All are those of whole ULONGs. */
static void put_all(PRTL_BITMAP map, int byte)
{
    memset(map->Buffer, byte, ((size_t)map->SizeOfBitMap + 31) / 32 * sizeof(ULONG));
}

VOID RtlClearAllBits(PRTL_BITMAP BitMapHeader)
{
    put_all(BitMapHeader, 0);
}

VOID RtlSetAllBits(PRTL_BITMAP BitMapHeader)
{
    put_all(BitMapHeader, 0xff);
}

VOID RtlSetBits(PRTL_BITMAP BitMapHeader, ULONG StartingIndex, ULONG NumberToSet)
{
    put_bits(BitMapHeader, StartingIndex, NumberToSet, true);
}

VOID RtlClearBits(PRTL_BITMAP BitMapHeader, ULONG StartingIndex, ULONG NumberToClear)
{
    put_bits(BitMapHeader, StartingIndex, NumberToClear, false);
}

BOOLEAN RtlTestBit(PRTL_BITMAP BitMapHeader, ULONG BitNumber)
{
    return BitNumber < BitMapHeader->SizeOfBitMap && (BitMapHeader->Buffer[BitNumber / 32] >> BitNumber % 32 & 1);
}

BOOLEAN RtlCheckBit(PRTL_BITMAP BitMapHeader, ULONG BitPosition)
{
    return RtlTestBit(BitMapHeader, BitPosition);
}

/* The bits from there on that are the same, up to so many. */
static ULONG run_at(PRTL_BITMAP map, ULONG start, bool is_set)
{
    ULONG at = start;
    while (at < map->SizeOfBitMap && RtlTestBit(map, at) == is_set)
        at++;
    return at - start;
}

static bool are_all(PRTL_BITMAP map, ULONG start, ULONG count, bool is_set)
{
    return count && start < map->SizeOfBitMap && count <= map->SizeOfBitMap - start && run_at(map, start, is_set) >= count;
}

BOOLEAN RtlAreBitsSet(PRTL_BITMAP BitMapHeader, ULONG StartingIndex, ULONG Length)
{
    return are_all(BitMapHeader, StartingIndex, Length, true);
}

BOOLEAN RtlAreBitsClear(PRTL_BITMAP BitMapHeader, ULONG StartingIndex, ULONG Length)
{
    return are_all(BitMapHeader, StartingIndex, Length, false);
}

ULONG RtlNumberOfSetBits(PRTL_BITMAP BitMapHeader)
{
    ULONG count = 0;
    for (ULONG at = 0; at < BitMapHeader->SizeOfBitMap; at++)
        count += RtlTestBit(BitMapHeader, at);
    return count;
}

ULONG RtlNumberOfClearBits(PRTL_BITMAP BitMapHeader)
{
    return BitMapHeader->SizeOfBitMap - RtlNumberOfSetBits(BitMapHeader);
}

/* ---- Runs. The hint is where a search begins, down to a whole byte; then what stands before it is looked through. */
static ULONG find_between(PRTL_BITMAP map, ULONG from, ULONG to, ULONG count, bool is_set)
{
    for (ULONG at = from; at < to && count <= map->SizeOfBitMap - at; at++)
        if (run_at(map, at, is_set) >= count)
            return at;
    return nowhere;
}

static ULONG find_bits(PRTL_BITMAP map, ULONG count, ULONG hint, bool is_set)
{
    if (count > map->SizeOfBitMap)
        return nowhere;
    hint = hint < map->SizeOfBitMap ? hint & ~7u : 0;
    if (!count)
        return hint;
    ULONG found = find_between(map, hint, map->SizeOfBitMap, count, is_set);
    return found == nowhere ? find_between(map, 0, hint, count, is_set) : found;
}

ULONG RtlFindSetBits(PRTL_BITMAP BitMapHeader, ULONG NumberToFind, ULONG HintIndex)
{
    return find_bits(BitMapHeader, NumberToFind, HintIndex, true);
}

ULONG RtlFindClearBits(PRTL_BITMAP BitMapHeader, ULONG NumberToFind, ULONG HintIndex)
{
    return find_bits(BitMapHeader, NumberToFind, HintIndex, false);
}

ULONG RtlFindSetBitsAndClear(PRTL_BITMAP BitMapHeader, ULONG NumberToFind, ULONG HintIndex)
{
    ULONG found = find_bits(BitMapHeader, NumberToFind, HintIndex, true);
    if (found != nowhere)
        put_bits(BitMapHeader, found, NumberToFind, false);
    return found;
}

ULONG RtlFindClearBitsAndSet(PRTL_BITMAP BitMapHeader, ULONG NumberToFind, ULONG HintIndex)
{
    ULONG found = find_bits(BitMapHeader, NumberToFind, HintIndex, false);
    if (found != nowhere)
        put_bits(BitMapHeader, found, NumberToFind, true);
    return found;
}

static ULONG next_run(PRTL_BITMAP map, ULONG from, PULONG start)
{
    ULONG at = from < map->SizeOfBitMap ? from + run_at(map, from, true) : map->SizeOfBitMap;
    *start = at < map->SizeOfBitMap ? at : from;
    return at < map->SizeOfBitMap ? run_at(map, at, false) : 0;
}

ULONG RtlFindNextForwardRunClear(PRTL_BITMAP BitMapHeader, ULONG FromIndex, PULONG StartingRunIndex)
{
    return next_run(BitMapHeader, FromIndex, StartingRunIndex);
}

/* The first ones, or the longest, the longest first. */
static ULONG find_runs(PRTL_BITMAP map, PRTL_BITMAP_RUN runs, ULONG room, bool is_longest)
{
    ULONG count = 0, start, length;
    for (ULONG at = 0; room && (is_longest || count < room) && (length = next_run(map, at, &start)) > 0; at = start + length) {
        ULONG place = count;
        while (is_longest && place > 0 && runs[place - 1].NumberOfBits < length)
            place--;
        if (place == room)
            continue;
        count += count < room;
        memmove(runs + place + 1, runs + place, (count - place - 1) * sizeof *runs);
        runs[place] = (RTL_BITMAP_RUN){start, length};
    }
    return count;
}

ULONG RtlFindClearRuns(PRTL_BITMAP BitMapHeader, PRTL_BITMAP_RUN RunArray, ULONG SizeOfRunArray, BOOLEAN LocateLongestRuns)
{
    return find_runs(BitMapHeader, RunArray, SizeOfRunArray, LocateLongestRuns);
}

ULONG RtlFindLongestRunClear(PRTL_BITMAP BitMapHeader, PULONG StartingIndex)
{
    RTL_BITMAP_RUN run = {0};
    find_runs(BitMapHeader, &run, 1, true);
    *StartingIndex = run.StartingIndex;
    return run.NumberOfBits;
}

/* ---- Of one number. */
CCHAR RtlFindMostSignificantBit(ULONGLONG Set)
{
    return (CCHAR)(Set ? 63 - __builtin_clzll(Set) : -1);
}

CCHAR RtlFindLeastSignificantBit(ULONGLONG Set)
{
    return (CCHAR)(Set ? __builtin_ctzll(Set) : -1);
}
