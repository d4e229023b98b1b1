/* Intrinsics of the kit's compiler, by those of ours. */
#ifndef KZ_INTRIN_H
#define KZ_INTRIN_H

#include <wdm.h>

#define _ReturnAddress() __builtin_return_address(0)
#define _AddressOfReturnAddress() __builtin_frame_address(0)
#define _byteswap_ushort(value) __builtin_bswap16(value)
#define _byteswap_ulong(value) __builtin_bswap32(value)
#define _byteswap_uint64(value) __builtin_bswap64(value)
#define _rotl(value, by) KzRotate32((value), (by))
#define _rotr(value, by) KzRotate32((value), 32 - (by))
#define _rotl64(value, by) KzRotate64((value), (by))
#define _rotr64(value, by) KzRotate64((value), 64 - (by))
#define __popcnt(value) ((unsigned)__builtin_popcount(value))
#define __popcnt64(value) ((ULONG64)__builtin_popcountll(value))
#define _ReadWriteBarrier() __asm__ volatile("" ::: "memory")
#define _ReadBarrier() _ReadWriteBarrier()
#define _WriteBarrier() _ReadWriteBarrier()
#define _InterlockedIncrement InterlockedIncrement
#define _InterlockedDecrement InterlockedDecrement
#define _InterlockedExchange InterlockedExchange
#define _InterlockedExchangeAdd InterlockedExchangeAdd
#define _InterlockedCompareExchange InterlockedCompareExchange
#define _InterlockedExchangePointer InterlockedExchangePointer
#define _InterlockedCompareExchangePointer InterlockedCompareExchangePointer
#define _InterlockedIncrement64 InterlockedIncrement64
#define _InterlockedDecrement64 InterlockedDecrement64
#define _InterlockedExchange64 InterlockedExchange64
#define _InterlockedCompareExchange64 InterlockedCompareExchange64
#define _InterlockedAnd InterlockedAnd
#define _InterlockedOr InterlockedOr
#define _InterlockedXor InterlockedXor
#define __stosb(to, byte, count) ((void)memset((to), (byte), (count)))
#define __movsb(to, from, count) ((void)memmove((to), (from), (count)))

FORCEINLINE ULONG KzRotate32(ULONG Value, int By)
{
    By &= 31;
    return By ? Value << By | Value >> (32 - By) : Value;
}

FORCEINLINE ULONG64 KzRotate64(ULONG64 Value, int By)
{
    By &= 63;
    return By ? Value << By | Value >> (64 - By) : Value;
}

/* The number of the lowest or the highest bit that is set; FALSE if none is. */
FORCEINLINE BOOLEAN KzBitForward(ULONG *Index, ULONG64 Mask)
{
    if (Mask)
        *Index = (ULONG)__builtin_ctzll(Mask);
    return Mask != 0;
}

FORCEINLINE BOOLEAN KzBitReverse(ULONG *Index, ULONG64 Mask)
{
    if (Mask)
        *Index = 63 - (ULONG)__builtin_clzll(Mask);
    return Mask != 0;
}
#define _BitScanForward(index, mask) KzBitForward((index), (ULONG)(mask))
#define _BitScanForward64(index, mask) KzBitForward((index), (mask))
#define _BitScanReverse(index, mask) KzBitReverse((index), (ULONG)(mask))
#define _BitScanReverse64(index, mask) KzBitReverse((index), (mask))

#if defined(__x86_64__) || defined(__i386__)
FORCEINLINE ULONG64 KzTimeStamp(VOID)
{
    ULONG low, high;
    __asm__ volatile("rdtsc" : "=a"(low), "=d"(high));
    return (ULONG64)high << 32 | low;
}
#define __rdtsc() KzTimeStamp()
#ifndef __clang__
FORCEINLINE VOID __cpuid(int Registers[4], int Leaf)
{
    __asm__ volatile("cpuid" : "=a"(Registers[0]), "=b"(Registers[1]), "=c"(Registers[2]), "=d"(Registers[3]) : "a"(Leaf), "c"(0));
}
#endif
#endif

#endif
