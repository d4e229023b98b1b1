/* Letters as bytes: in UTF-8, and in the code page 1252, which is the system's here. */
#include "lib/encoding.h"

#define REPLACEMENT 0xfffdu

/* ---- The code page: Latin-1, but for these. */
static const WCHAR from_0x80[] = {0x20ac, 0x81,   0x201a, 0x192,  0x201e, 0x2026, 0x2020, 0x2021, 0x2c6, 0x2030, 0x160, 0x2039, 0x152, 0x8d, 0x17d, 0x8f,
                                  0x90,   0x2018, 0x2019, 0x201c, 0x201d, 0x2022, 0x2013, 0x2014, 0x2dc, 0x2122, 0x161, 0x203a, 0x153, 0x9d, 0x17e, 0x178};
#define COUNT (sizeof from_0x80 / sizeof from_0x80[0])

WCHAR kz_from_code_page(CHAR byte)
{
    UCHAR number = (UCHAR)byte;
    return number >= 0x80 && number < 0x80 + COUNT ? from_0x80[number - 0x80] : number;
}

CHAR kz_to_code_page(WCHAR letter)
{
    if (letter < 0x80 || (letter >= 0x80 + COUNT && letter < 0x100))
        return (CHAR)letter;
    for (size_t at = 0; at < COUNT; at++)
        if (from_0x80[at] == letter)
            return (CHAR)(0x80 + at);
    return '?';
}

NTSTATUS RtlUnicodeToMultiByteN(PCHAR MultiByteString, ULONG MaxBytes, PULONG BytesWritten, PCWCH UnicodeString, ULONG BytesInUnicodeString)
{
    ULONG length = BytesInUnicodeString / sizeof(WCHAR) < MaxBytes ? BytesInUnicodeString / sizeof(WCHAR) : MaxBytes;
    for (ULONG at = 0; at < length; at++)
        MultiByteString[at] = kz_to_code_page(UnicodeString[at]);
    if (BytesWritten)
        *BytesWritten = length;
    return STATUS_SUCCESS;
}

NTSTATUS RtlMultiByteToUnicodeN(PWCH UnicodeString, ULONG MaxBytes, PULONG BytesWritten, const CHAR *MultiByteString, ULONG BytesInMultiByteString)
{
    ULONG length = BytesInMultiByteString < MaxBytes / sizeof(WCHAR) ? BytesInMultiByteString : MaxBytes / sizeof(WCHAR);
    for (ULONG at = 0; at < length; at++)
        UnicodeString[at] = kz_from_code_page(MultiByteString[at]);
    if (BytesWritten)
        *BytesWritten = length * sizeof(WCHAR);
    return STATUS_SUCCESS;
}

/* ---- UTF-8. What is no letter stands as the replacement character, and the status says so. */
/* One letter of a text, from one or two of its words: how many. */
static ULONG take_letter(const WCHAR *from, ULONG left, ULONG *letter, NTSTATUS *status)
{
    *letter = from[0];
    if (*letter < 0xd800 || *letter >= 0xe000)
        return 1;
    if (*letter < 0xdc00 && left > 1 && from[1] >= 0xdc00 && from[1] < 0xe000) {
        *letter = 0x10000 + ((*letter - 0xd800) << 10) + (from[1] - 0xdc00u);
        return 2;
    }
    *letter = REPLACEMENT;
    *status = STATUS_SOME_NOT_MAPPED;
    return 1;
}

static ULONG spell(ULONG letter, UCHAR *bytes)
{
    ULONG count = letter < 0x80 ? 1 : letter < 0x800 ? 2 : letter < 0x10000 ? 3 : 4;
    for (ULONG at = count; at-- > 1; letter >>= 6)
        bytes[at] = (UCHAR)(0x80 | (letter & 0x3f));
    bytes[0] = (UCHAR)(count == 1 ? letter : (0xf0u << (4 - count) & 0xff) | letter);
    return count;
}

/* What so many bytes of a letter begin is none, however it goes on: it is too small for its length, half of a pair, or too large. */
static bool is_no_beginning(ULONG begun, ULONG left, ULONG least)
{
    ULONG low = begun << 6 * left, high = low | ((1u << 6 * left) - 1);
    return high < least || low >= 0x110000 || (low >= 0xd800 && high < 0xe000);
}

/* One letter of bytes: how many. Of what is none the longest beginning of one counts, with the byte by which it is none if that goes on, and else one byte. */
static ULONG take_bytes(const UCHAR *from, ULONG left, ULONG *letter, NTSTATUS *status)
{
    static const ULONG least[] = {0, 0, 0x80, 0x800, 0x10000};
    UCHAR first = from[0];
    ULONG count = first < 0x80 ? 1 : first >= 0xc2 && first < 0xe0 ? 2 : first >= 0xe0 && first < 0xf0 ? 3 : first >= 0xf0 && first < 0xf5 ? 4 : 0, at = 1;
    *letter = count < 2 ? first : first & (0x7fu >> count);
    bool is_none = count == 0;
    for (; !is_none && at < count && at < left && (from[at] & 0xc0) == 0x80; at++) {
        *letter = *letter << 6 | (from[at] & 0x3f);
        is_none = is_no_beginning(*letter, count - at - 1, least[count]);
    }
    if (!is_none && at == count)
        return at;
    *letter = REPLACEMENT;
    *status = STATUS_SOME_NOT_MAPPED;
    return at;
}

/* With no destination only the count is told. */
NTSTATUS RtlUnicodeToUTF8N(PCHAR UTF8StringDestination, ULONG UTF8StringMaxByteCount, PULONG UTF8StringActualByteCount, PCWCH UnicodeStringSource, ULONG UnicodeStringByteCount)
{
    UCHAR bytes[4];
    ULONG written = 0, letter, length = UnicodeStringByteCount / (ULONG)sizeof(WCHAR);
    NTSTATUS status = STATUS_SUCCESS;
    if (!UnicodeStringSource)
        return STATUS_INVALID_PARAMETER_4;
    if (!UTF8StringActualByteCount)
        return STATUS_INVALID_PARAMETER;
    if (UTF8StringDestination && UnicodeStringByteCount % sizeof(WCHAR))
        return STATUS_INVALID_PARAMETER_5;
    for (ULONG at = 0; at < length && status != STATUS_BUFFER_TOO_SMALL;) {
        at += take_letter(UnicodeStringSource + at, length - at, &letter, &status);
        ULONG count = spell(letter, bytes);
        if (UTF8StringDestination && written + count > UTF8StringMaxByteCount) {
            status = STATUS_BUFFER_TOO_SMALL;
        } else {
            if (UTF8StringDestination)
                memcpy(UTF8StringDestination + written, bytes, count);
            written += count;
        }
    }
    *UTF8StringActualByteCount = written;
    return status;
}

NTSTATUS RtlUTF8ToUnicodeN(PWSTR UnicodeStringDestination, ULONG UnicodeStringMaxByteCount, PULONG UnicodeStringActualByteCount, const CHAR *UTF8StringSource, ULONG UTF8StringByteCount)
{
    ULONG written = 0, letter, room = UnicodeStringMaxByteCount / (ULONG)sizeof(WCHAR);
    NTSTATUS status = STATUS_SUCCESS;
    if (!UTF8StringSource)
        return STATUS_INVALID_PARAMETER_4;
    if (!UnicodeStringActualByteCount)
        return STATUS_INVALID_PARAMETER;
    for (ULONG at = 0; at < UTF8StringByteCount && status != STATUS_BUFFER_TOO_SMALL;) {
        at += take_bytes((const UCHAR *)UTF8StringSource + at, UTF8StringByteCount - at, &letter, &status);
        WCHAR pair[] = {(WCHAR)(letter >= 0x10000 ? 0xd800 + ((letter - 0x10000) >> 10) : letter), (WCHAR)(0xdc00 + (letter & 0x3ff))};
        for (unsigned half = 0; half <= (letter >= 0x10000) && status != STATUS_BUFFER_TOO_SMALL; half++) { /* the room may end between them */
            if (UnicodeStringDestination && written == room)
                status = STATUS_BUFFER_TOO_SMALL;
            else if (UnicodeStringDestination)
                UnicodeStringDestination[written] = pair[half];
            written += status != STATUS_BUFFER_TOO_SMALL;
        }
    }
    *UnicodeStringActualByteCount = written * (ULONG)sizeof(WCHAR);
    return status;
}
