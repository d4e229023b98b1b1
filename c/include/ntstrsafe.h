/* The kit's safe string calls, by count of bytes (Cb) and of characters (Cch), for 8-bit (A) and 16-bit (W) text. */
#ifndef KZ_NTSTRSAFE_H
#define KZ_NTSTRSAFE_H

#include <wdm.h>

KZ_BEGIN

#define NTSTRSAFE_MAX_CCH 2147483647
#define NTSTRSAFE_UNICODE_STRING_MAX_CCH (0xffff / sizeof(wchar_t))

/* How many letters of `from` (at most `most`) are put behind the first `at` of a room of `room` letters; STATUS_BUFFER_OVERFLOW if they don't all fit. */
NTSTATUS KzPutW(NTSTRSAFE_PWSTR To, size_t Room, size_t At, NTSTRSAFE_PCWSTR From, size_t Most);
NTSTATUS KzPutA(PSTR To, size_t Room, size_t At, PCSTR From, size_t Most);
NTSTATUS KzPrintW(NTSTRSAFE_PWSTR To, size_t Room, NTSTRSAFE_PWSTR *End, size_t *Left, NTSTRSAFE_PCWSTR Format, ...);
NTSTATUS KzPrintA(PSTR To, size_t Room, PSTR *End, size_t *Left, PCSTR Format, ...);
NTSTATUS RtlStringCchVPrintfW(NTSTRSAFE_PWSTR To, size_t Room, NTSTRSAFE_PCWSTR Format, va_list Arguments);
NTSTATUS RtlStringCchVPrintfA(PSTR To, size_t Room, PCSTR Format, va_list Arguments);
NTSTATUS RtlStringCchLengthW(NTSTRSAFE_PCWSTR Text, size_t Most, size_t *Length);
NTSTATUS RtlStringCchLengthA(PCSTR Text, size_t Most, size_t *Length);
NTSTATUS KzUnicodePrint(PUNICODE_STRING To, NTSTRSAFE_PCWSTR Format, ...);

#define KZ_ALL ((size_t)-1)
#define RtlStringCchCopyW(to, room, from) KzPutW((to), (room), 0, (from), KZ_ALL)
#define RtlStringCbCopyW(to, bytes, from) KzPutW((to), (bytes) / sizeof(WCHAR), 0, (from), KZ_ALL)
#define RtlStringCchCopyA(to, room, from) KzPutA((to), (room), 0, (from), KZ_ALL)
#define RtlStringCbCopyA RtlStringCchCopyA
#define RtlStringCchCopyNW(to, room, from, most) KzPutW((to), (room), 0, (from), (most))
#define RtlStringCbCopyNW(to, bytes, from, most) KzPutW((to), (bytes) / sizeof(WCHAR), 0, (from), (most) / sizeof(WCHAR))
#define RtlStringCchCopyNA(to, room, from, most) KzPutA((to), (room), 0, (from), (most))
#define RtlStringCbCopyNA RtlStringCchCopyNA
#define RtlStringCchCatW(to, room, from) KzPutW((to), (room), KzWcsnlen((to), (room)), (from), KZ_ALL)
#define RtlStringCbCatW(to, bytes, from) KzPutW((to), (bytes) / sizeof(WCHAR), KzWcsnlen((to), (bytes) / sizeof(WCHAR)), (from), KZ_ALL)
#define RtlStringCchCatA(to, room, from) KzPutA((to), (room), strnlen((to), (room)), (from), KZ_ALL)
#define RtlStringCbCatA RtlStringCchCatA
#define RtlStringCchCatNW(to, room, from, most) KzPutW((to), (room), KzWcsnlen((to), (room)), (from), (most))
#define RtlStringCbCatNW(to, bytes, from, most) \
    KzPutW((to), (bytes) / sizeof(WCHAR), KzWcsnlen((to), (bytes) / sizeof(WCHAR)), (from), (most) / sizeof(WCHAR))
#define RtlStringCchPrintfW(to, room, ...) KzPrintW((to), (room), NULL, NULL, __VA_ARGS__)
#define RtlStringCbPrintfW(to, bytes, ...) KzPrintW((to), (bytes) / sizeof(WCHAR), NULL, NULL, __VA_ARGS__)
#define RtlStringCchPrintfA(to, room, ...) KzPrintA((to), (room), NULL, NULL, __VA_ARGS__)
#define RtlStringCbPrintfA RtlStringCchPrintfA
#define RtlStringCbVPrintfW(to, bytes, format, arguments) RtlStringCchVPrintfW((to), (bytes) / sizeof(WCHAR), (format), (arguments))
#define RtlStringCbVPrintfA RtlStringCchVPrintfA
#define RtlStringCchPrintfExW(to, room, end, left, flags, ...) ((void)(flags), KzPrintW((to), (room), (end), (left), __VA_ARGS__))
#define RtlStringCchPrintfExA(to, room, end, left, flags, ...) ((void)(flags), KzPrintA((to), (room), (end), (left), __VA_ARGS__))
FORCEINLINE NTSTATUS RtlStringCbLengthW(NTSTRSAFE_PCWSTR Text, size_t Bytes, size_t *Length)
{
    NTSTATUS status = RtlStringCchLengthW(Text, Bytes / sizeof(WCHAR), Length);
    if (Length)
        *Length *= sizeof(WCHAR);
    return status;
}
#define RtlStringCbLengthA RtlStringCchLengthA

NTSTATUS RtlUnicodeStringInit(PUNICODE_STRING To, NTSTRSAFE_PCWSTR From);
NTSTATUS RtlUnicodeStringCopy(PUNICODE_STRING To, PCUNICODE_STRING From);
NTSTATUS RtlUnicodeStringCopyString(PUNICODE_STRING To, NTSTRSAFE_PCWSTR From);
NTSTATUS RtlUnicodeStringCat(PUNICODE_STRING To, PCUNICODE_STRING From);
NTSTATUS RtlUnicodeStringCatString(PUNICODE_STRING To, NTSTRSAFE_PCWSTR From);
#define RtlUnicodeStringPrintf(to, ...) KzUnicodePrint((to), __VA_ARGS__)

KZ_END

#endif
