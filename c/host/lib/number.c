/* Numbers and GUIDs in texts. */
#include "core/client.h"
#include "lib/encoding.h"

/* ---- Read: blanks are what isn't above one, then one sign; base 0 is said by 0x, 0o or 0b. What a digit of that base isn't ends it. */
typedef struct Text {
    const void *letters;
    size_t at, length;
    bool is_wide;
} Text;

static unsigned letter_at(const Text *text, size_t ahead)
{
    size_t at = text->at + ahead;
    if (at >= text->length)
        return 0;
    return text->is_wide ? ((const WCHAR *)text->letters)[at] : ((const UCHAR *)text->letters)[at];
}

static ULONG digit_at(const Text *text)
{
    unsigned letter = letter_at(text, 0), low = letter | 0x20;
    return letter >= '0' && letter <= '9' ? letter - '0' : low >= 'a' && low <= 'f' ? low - 'a' + 10 : 99;
}

static ULONG base_said(Text *text)
{
    unsigned letter = letter_at(text, 0) == '0' ? letter_at(text, 1) : 0;
    ULONG base = letter == 'x' ? 16 : letter == 'o' ? 8 : letter == 'b' ? 2 : 10;
    text->at += base == 10 ? 0 : 2;
    return base;
}

static bool is_base(ULONG base)
{
    return base == 0 || base == 2 || base == 8 || base == 10 || base == 16;
}

static NTSTATUS read_number(Text text, ULONG base, PULONG value)
{
    while (text.at < text.length && letter_at(&text, 0) <= ' ')
        text.at++;
    unsigned sign = letter_at(&text, 0);
    text.at += sign == '-' || sign == '+';
    if (!is_base(base))
        return STATUS_INVALID_PARAMETER;
    if (!value)
        return STATUS_ACCESS_VIOLATION;
    base = base ? base : base_said(&text);
    ULONG read = 0;
    for (; digit_at(&text) < base; text.at++)
        read = read * base + digit_at(&text);
    *value = sign == '-' ? 0u - read : read;
    return STATUS_SUCCESS;
}

NTSTATUS RtlCharToInteger(PCSZ String, ULONG Base, PULONG Value)
{
    KZ_INSIDE_AS_DRIVER();
    return read_number((Text){String, 0, strlen(String), false}, Base, Value);
}

NTSTATUS RtlUnicodeStringToInteger(PCUNICODE_STRING String, ULONG Base, PULONG Value)
{
    KZ_INSIDE_AS_DRIVER();
    return read_number((Text){String->Buffer, 0, String->Length / sizeof(WCHAR), true}, Base, Value);
}

/* ---- Written: its digits at the end of the room, and where they begin. */
enum { DIGITS = 64 };

static size_t write_digits(ULONGLONG value, ULONG base, char digits[DIGITS])
{
    size_t at = DIGITS;
    do
        digits[--at] = "0123456789ABCDEF"[value % base];
    while ((value /= base) > 0);
    return at;
}

NTSTATUS RtlInt64ToUnicodeString(ULONGLONG Value, ULONG Base, PUNICODE_STRING String)
{
    KZ_INSIDE_AS_DRIVER();
    char digits[DIGITS];
    if (!is_base(Base))
        return STATUS_INVALID_PARAMETER;
    size_t at = write_digits(Value, Base ? Base : 10, digits), length = DIGITS - at;
    String->Length = (USHORT)(length * sizeof(WCHAR));
    if (String->Length >= String->MaximumLength) /* there is room for a null, too */
        return STATUS_BUFFER_OVERFLOW;
    for (size_t digit = 0; digit < length; digit++)
        String->Buffer[digit] = (WCHAR)digits[at + digit];
    String->Buffer[length] = 0;
    return STATUS_SUCCESS;
}

NTSTATUS RtlIntegerToUnicodeString(ULONG Value, ULONG Base, PUNICODE_STRING String)
{
    KZ_INSIDE_AS_DRIVER();
    return RtlInt64ToUnicodeString(Value, Base, String);
}

/* A null comes behind where there is room for it. */
NTSTATUS RtlIntegerToChar(ULONG Value, ULONG Base, LONG OutputLength, PSTR String)
{
    KZ_INSIDE_AS_DRIVER();
    char digits[DIGITS];
    if (!is_base(Base))
        return STATUS_INVALID_PARAMETER;
    size_t at = write_digits(Value, Base ? Base : 10, digits), length = DIGITS - at;
    if (OutputLength < 0 || length > (size_t)OutputLength)
        return STATUS_BUFFER_OVERFLOW;
    if (!String)
        return STATUS_ACCESS_VIOLATION;
    memcpy(String, digits + at, length);
    if (length < (size_t)OutputLength)
        String[length] = 0;
    return STATUS_SUCCESS;
}

/* ---- GUIDs. */
enum { GUID_LETTERS = 38 };

NTSTATUS RtlStringFromGUID(REFGUID Guid, PUNICODE_STRING GuidString)
{
    KZ_INSIDE_AS_DRIVER();
    USHORT room = (GUID_LETTERS + 1) * sizeof(WCHAR);
    *GuidString = (UNICODE_STRING){0, room, ExAllocatePoolWithTag(PagedPool, room, 'rtsU')};
    if (!GuidString->Buffer)
        return STATUS_NO_MEMORY;
    GuidString->Length = GUID_LETTERS * sizeof(WCHAR);
    KzSnwprintf(GuidString->Buffer, GUID_LETTERS + 1, L"{%08X-%04X-%04X-%02X%02X-%02X%02X%02X%02X%02X%02X}", Guid->Data1, Guid->Data2, Guid->Data3, Guid->Data4[0], Guid->Data4[1], Guid->Data4[2],
                Guid->Data4[3], Guid->Data4[4], Guid->Data4[5], Guid->Data4[6], Guid->Data4[7]);
    return STATUS_SUCCESS;
}

/* Each sign stands in its place, and all others are digits. */
NTSTATUS RtlGUIDFromString(PCUNICODE_STRING GuidString, GUID *Guid)
{
    KZ_INSIDE_AS_DRIVER();
    static const char form[] = "{00000000-0000-0000-0000-000000000000}";
    UCHAR digits[32];
    size_t count = 0;
    Text text = {GuidString->Buffer, 0, GuidString->Length / sizeof(WCHAR), true};
    for (; text.at < GUID_LETTERS; text.at++) {
        ULONG digit = digit_at(&text);
        if (form[text.at] == '0' ? digit > 15 : letter_at(&text, 0) != (unsigned char)form[text.at])
            return STATUS_INVALID_PARAMETER;
        if (form[text.at] == '0')
            digits[count++] = (UCHAR)digit;
    }
    UCHAR bytes[16];
    for (size_t at = 0; at < sizeof bytes; at++)
        bytes[at] = (UCHAR)(digits[2 * at] << 4 | digits[2 * at + 1]);
    *Guid = (GUID){(ULONG)bytes[0] << 24 | (ULONG)bytes[1] << 16 | (ULONG)bytes[2] << 8 | bytes[3], (USHORT)(bytes[4] << 8 | bytes[5]), (USHORT)(bytes[6] << 8 | bytes[7]), {0}};
    memcpy(Guid->Data4, bytes + 8, 8);
    return STATUS_SUCCESS;
}
