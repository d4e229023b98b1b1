/* The kit's sums and conversions that say when they don't fit. */
#ifndef KZ_NTINTSAFE_H
#define KZ_NTINTSAFE_H

#include <ntdef.h>

#define KZ_FITS(does_not, result, none) ((does_not) ? (*(result) = (none), STATUS_INTEGER_OVERFLOW) : STATUS_SUCCESS)
#define KZ_SUM(name, type)                                                                    \
    static inline NTSTATUS Rtl##name##Add(type a, type b, type *result)                       \
    {                                                                                         \
        return KZ_FITS(__builtin_add_overflow(a, b, result), result, (type)-1);               \
    }                                                                                         \
    static inline NTSTATUS Rtl##name##Sub(type a, type b, type *result)                       \
    {                                                                                         \
        return KZ_FITS(__builtin_sub_overflow(a, b, result), result, (type)-1);               \
    }                                                                                         \
    static inline NTSTATUS Rtl##name##Mult(type a, type b, type *result)                      \
    {                                                                                         \
        return KZ_FITS(__builtin_mul_overflow(a, b, result), result, (type)-1);               \
    }
#define KZ_CONVERT(from, to, from_type, to_type)                                              \
    static inline NTSTATUS Rtl##from##To##to(from_type a, to_type *result)                    \
    {                                                                                         \
        return KZ_FITS(__builtin_add_overflow(a, 0, result), result, (to_type)-1);            \
    }

KZ_SUM(UShort, USHORT)
KZ_SUM(ULong, ULONG)
KZ_SUM(Long, LONG)
KZ_SUM(ULongLong, ULONGLONG)
KZ_SUM(LongLong, LONGLONG)
KZ_SUM(SizeT, SIZE_T)
KZ_SUM(ULongPtr, ULONG_PTR)
KZ_CONVERT(ULong, UShort, ULONG, USHORT)
KZ_CONVERT(ULong, UChar, ULONG, UCHAR)
KZ_CONVERT(ULong, Long, ULONG, LONG)
KZ_CONVERT(Long, ULong, LONG, ULONG)
KZ_CONVERT(SizeT, ULong, SIZE_T, ULONG)
KZ_CONVERT(SizeT, UShort, SIZE_T, USHORT)
KZ_CONVERT(ULongLong, ULong, ULONGLONG, ULONG)
KZ_CONVERT(LongLong, ULong, LONGLONG, ULONG)
KZ_CONVERT(ULongLong, LongLong, ULONGLONG, LONGLONG)
KZ_CONVERT(ULongPtr, ULong, ULONG_PTR, ULONG)

#endif
