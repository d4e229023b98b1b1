/* A header of a driver's own, with words of Microsoft's compiler. */
#pragma once

#define LOG(text) DbgPrint(__FUNCTION__ ": " text)

typedef enum _KIND : ULONG {
    KindNone,
    KindRead = 1,
    KindWrite
} KIND;

typedef struct _BITS {
    UCHAR Low : 3;
    ULONG High : 5;
} BITS;

struct __declspec(align(64)) _LINE {
    unsigned long int Number;
};

static const ULONG64 gMask = 0xfffffffff0ui64;
