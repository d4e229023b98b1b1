/* Counted strings: the kit's Rtl calls. */
#include "core/client.h"
#include "core/piece.h"
#include "lib/encoding.h"
#include "lib/upcase.h"

#include <ntstrsafe.h>

VOID RtlInitUnicodeString(PUNICODE_STRING DestinationString, PCWSTR SourceString)
{
    KZ_INSIDE_AS_DRIVER();
    kz_check_text(SourceString, __func__);
    USHORT length = SourceString ? (USHORT)(KzWcslen(SourceString) * sizeof(WCHAR)) : 0;
    *DestinationString = (UNICODE_STRING){length, SourceString ? (USHORT)(length + sizeof(WCHAR)) : 0, (PWSTR)SourceString};
}

NTSTATUS RtlInitUnicodeStringEx(PUNICODE_STRING DestinationString, PCWSTR SourceString)
{
    KZ_INSIDE_AS_DRIVER();
    if (SourceString && KzWcslen(SourceString) > UNICODE_STRING_MAX_CHARS - 1)
        return STATUS_NAME_TOO_LONG;
    RtlInitUnicodeString(DestinationString, SourceString);
    return STATUS_SUCCESS;
}

VOID RtlInitEmptyUnicodeString(PUNICODE_STRING UnicodeString, PWSTR Buffer, USHORT BufferSize)
{
    *UnicodeString = (UNICODE_STRING){0, BufferSize, Buffer};
}

WCHAR RtlUpcaseUnicodeChar(WCHAR SourceCharacter)
{
    return kz_upcase(SourceCharacter);
}

WCHAR RtlDowncaseUnicodeChar(WCHAR SourceCharacter)
{
    return kz_downcase(SourceCharacter);
}

static LONG compare(const WCHAR *a, size_t length1, const WCHAR *b, size_t length2, BOOLEAN is_loose)
{
    for (size_t at = 0; at < length1 && at < length2; at++) {
        LONG apart = is_loose ? kz_upcase(a[at]) - kz_upcase(b[at]) : a[at] - b[at];
        if (apart)
            return apart;
    }
    return (LONG)length1 - (LONG)length2;
}

LONG RtlCompareUnicodeString(PCUNICODE_STRING String1, PCUNICODE_STRING String2, BOOLEAN CaseInSensitive)
{
    KZ_INSIDE_AS_DRIVER();
    return compare(String1->Buffer, String1->Length / sizeof(WCHAR), String2->Buffer, String2->Length / sizeof(WCHAR), CaseInSensitive);
}

LONG RtlCompareUnicodeStrings(PCWCH String1, SIZE_T String1Length, PCWCH String2, SIZE_T String2Length, BOOLEAN CaseInSensitive)
{
    KZ_INSIDE_AS_DRIVER();
    return compare(String1, String1Length, String2, String2Length, CaseInSensitive);
}

BOOLEAN RtlEqualUnicodeString(PCUNICODE_STRING String1, PCUNICODE_STRING String2, BOOLEAN CaseInSensitive)
{
    KZ_INSIDE_AS_DRIVER();
    return String1->Length == String2->Length && RtlCompareUnicodeString(String1, String2, CaseInSensitive) == 0;
}

BOOLEAN RtlPrefixUnicodeString(PCUNICODE_STRING String1, PCUNICODE_STRING String2, BOOLEAN CaseInSensitive)
{
    KZ_INSIDE_AS_DRIVER();
    USHORT length = String1->Length / sizeof(WCHAR);
    return String1->Length <= String2->Length && compare(String1->Buffer, length, String2->Buffer, length, CaseInSensitive) == 0;
}

BOOLEAN RtlSuffixUnicodeString(PCUNICODE_STRING String1, PCUNICODE_STRING String2, BOOLEAN CaseInSensitive)
{
    USHORT length = String1->Length / sizeof(WCHAR), start = String2->Length / sizeof(WCHAR) - length;
    return String1->Length <= String2->Length && compare(String1->Buffer, length, String2->Buffer + start, length, CaseInSensitive) == 0;
}

/* As in the kit, a null comes behind where there is room for it. */
static void end(PUNICODE_STRING text)
{
    if (text->Length + sizeof(WCHAR) <= text->MaximumLength)
        text->Buffer[text->Length / sizeof(WCHAR)] = 0;
}

VOID RtlCopyUnicodeString(PUNICODE_STRING DestinationString, PCUNICODE_STRING SourceString)
{
    if (!SourceString) {
        DestinationString->Length = 0;
        return;
    }
    USHORT length = SourceString->Length < DestinationString->MaximumLength ? SourceString->Length : DestinationString->MaximumLength;
    DestinationString->Length = length;
    if (length)
        memmove(DestinationString->Buffer, SourceString->Buffer, length);
    end(DestinationString);
}

NTSTATUS RtlAppendUnicodeStringToString(PUNICODE_STRING Destination, PCUNICODE_STRING Source)
{
    if (!Source->Length)
        return STATUS_SUCCESS;
    if (Destination->Length + Source->Length > Destination->MaximumLength)
        return STATUS_BUFFER_TOO_SMALL;
    memmove((PUCHAR)Destination->Buffer + Destination->Length, Source->Buffer, Source->Length);
    Destination->Length += Source->Length;
    end(Destination);
    return STATUS_SUCCESS;
}

NTSTATUS RtlAppendUnicodeToString(PUNICODE_STRING Destination, PCWSTR Source)
{
    KZ_INSIDE_AS_DRIVER();
    UNICODE_STRING text;
    RtlInitUnicodeString(&text, Source);
    return RtlAppendUnicodeStringToString(Destination, &text);
}

#define TEXT_TAG 'rtsU'

static NTSTATUS make_room(PUNICODE_STRING to, USHORT length, BOOLEAN is_new)
{
    if (is_new) {
        to->Buffer = ExAllocatePoolWithTag(PagedPool, length + sizeof(WCHAR), TEXT_TAG);
        to->MaximumLength = length + sizeof(WCHAR);
        if (!to->Buffer)
            return STATUS_NO_MEMORY;
    }
    if (to->MaximumLength < length)
        return STATUS_BUFFER_OVERFLOW;
    to->Length = length;
    return STATUS_SUCCESS;
}

static NTSTATUS turned(PUNICODE_STRING to, PCUNICODE_STRING from, BOOLEAN is_new, WCHAR (*turn)(WCHAR))
{
    NTSTATUS status = make_room(to, from->Length, is_new);
    if (!NT_SUCCESS(status) || status == STATUS_BUFFER_OVERFLOW)
        return status;
    for (USHORT at = 0; at < from->Length / sizeof(WCHAR); at++)
        to->Buffer[at] = turn(from->Buffer[at]);
    end(to);
    return STATUS_SUCCESS;
}

NTSTATUS RtlUpcaseUnicodeString(PUNICODE_STRING DestinationString, PCUNICODE_STRING SourceString, BOOLEAN AllocateDestinationString)
{
    KZ_INSIDE_AS_DRIVER();
    return turned(DestinationString, SourceString, AllocateDestinationString, kz_upcase);
}

NTSTATUS RtlDowncaseUnicodeString(PUNICODE_STRING DestinationString, PCUNICODE_STRING SourceString, BOOLEAN AllocateDestinationString)
{
    KZ_INSIDE_AS_DRIVER();
    return turned(DestinationString, SourceString, AllocateDestinationString, kz_downcase);
}

NTSTATUS RtlAnsiStringToUnicodeString(PUNICODE_STRING DestinationString, PCANSI_STRING SourceString, BOOLEAN AllocateDestinationString)
{
    KZ_INSIDE_AS_DRIVER();
    NTSTATUS status = make_room(DestinationString, SourceString->Length * sizeof(WCHAR), AllocateDestinationString);
    if (status != STATUS_SUCCESS)
        return status;
    for (USHORT at = 0; at < SourceString->Length; at++)
        DestinationString->Buffer[at] = kz_from_code_page(SourceString->Buffer[at]);
    end(DestinationString);
    return STATUS_SUCCESS;
}

NTSTATUS RtlUnicodeStringToAnsiString(PANSI_STRING DestinationString, PCUNICODE_STRING SourceString, BOOLEAN AllocateDestinationString)
{
    KZ_INSIDE_AS_DRIVER();
    USHORT length = SourceString->Length / sizeof(WCHAR);
    if (AllocateDestinationString) {
        DestinationString->Buffer = ExAllocatePoolWithTag(PagedPool, length + 1u, TEXT_TAG);
        DestinationString->MaximumLength = length + 1;
        if (!DestinationString->Buffer)
            return STATUS_NO_MEMORY;
    }
    NTSTATUS status = length < DestinationString->MaximumLength ? STATUS_SUCCESS : STATUS_BUFFER_OVERFLOW;
    DestinationString->Length = length;
    if (!DestinationString->MaximumLength)
        return status;
    if (status != STATUS_SUCCESS)
        length = DestinationString->MaximumLength - 1;
    for (USHORT at = 0; at < length; at++)
        DestinationString->Buffer[at] = kz_to_code_page(SourceString->Buffer[at]);
    DestinationString->Buffer[length] = 0;
    DestinationString->Length = length;
    return status;
}

/* ---- In UTF-8. */
NTSTATUS RtlUnicodeStringToUTF8String(PUTF8_STRING DestinationString, PCUNICODE_STRING SourceString, BOOLEAN AllocateDestinationString)
{
    KZ_INSIDE_AS_DRIVER();
    ULONG length;
    NTSTATUS status = RtlUnicodeToUTF8N(NULL, 0, &length, SourceString->Buffer, SourceString->Length);
    if (!NT_SUCCESS(status) || length >= 0xffff)
        return NT_SUCCESS(status) ? STATUS_INVALID_PARAMETER_2 : status;
    if (AllocateDestinationString) {
        DestinationString->Buffer = ExAllocatePoolWithTag(PagedPool, length + 1, TEXT_TAG);
        DestinationString->MaximumLength = (USHORT)(length + 1);
        if (!DestinationString->Buffer)
            return STATUS_NO_MEMORY;
    }
    if (DestinationString->MaximumLength <= length)
        return STATUS_BUFFER_OVERFLOW;
    status = RtlUnicodeToUTF8N(DestinationString->Buffer, length, &length, SourceString->Buffer, SourceString->Length);
    DestinationString->Buffer[length] = 0;
    DestinationString->Length = (USHORT)length;
    return status;
}

NTSTATUS RtlUTF8StringToUnicodeString(PUNICODE_STRING DestinationString, PUTF8_STRING SourceString, BOOLEAN AllocateDestinationString)
{
    KZ_INSIDE_AS_DRIVER();
    ULONG length;
    NTSTATUS status = RtlUTF8ToUnicodeN(NULL, 0, &length, SourceString->Buffer, SourceString->Length);
    if (!NT_SUCCESS(status) || length > UNICODE_STRING_MAX_BYTES - sizeof(WCHAR))
        return NT_SUCCESS(status) ? STATUS_INVALID_PARAMETER_2 : status;
    NTSTATUS room = make_room(DestinationString, (USHORT)length, AllocateDestinationString);
    if (room != STATUS_SUCCESS)
        return room;
    status = RtlUTF8ToUnicodeN(DestinationString->Buffer, length, &length, SourceString->Buffer, SourceString->Length);
    end(DestinationString);
    return status;
}

VOID RtlFreeUnicodeString(PUNICODE_STRING UnicodeString)
{
    KZ_INSIDE_AS_DRIVER();
    if (UnicodeString->Buffer)
        ExFreePool(UnicodeString->Buffer);
    *UnicodeString = (UNICODE_STRING){0};
}

VOID RtlFreeAnsiString(PANSI_STRING AnsiString)
{
    KZ_INSIDE_AS_DRIVER();
    if (AnsiString->Buffer)
        ExFreePool(AnsiString->Buffer);
    *AnsiString = (ANSI_STRING){0};
}

VOID RtlFreeUTF8String(PUTF8_STRING Utf8String)
{
    RtlFreeAnsiString(Utf8String);
}

/* Room for a null, and the null, are there if the flags say so; nothing is made of nothing, unless they say that too. */
NTSTATUS RtlDuplicateUnicodeString(ULONG Flags, PCUNICODE_STRING StringIn, PUNICODE_STRING StringOut)
{
    KZ_INSIDE_AS_DRIVER();
    enum { ENDED = RTL_DUPLICATE_UNICODE_STRING_NULL_TERMINATE, ALWAYS = ENDED | RTL_DUPLICATE_UNICODE_STRING_ALLOCATE_NULL_STRING };
    if (!StringIn || !StringOut || (Flags && Flags != ENDED && Flags != ALWAYS) || !NT_SUCCESS(RtlValidateUnicodeString(0, StringIn)))
        return STATUS_INVALID_PARAMETER;
    *StringOut = (UNICODE_STRING){0};
    USHORT room = (USHORT)(StringIn->Length + (Flags ? sizeof(WCHAR) : 0));
    if (!StringIn->Length && Flags != ALWAYS)
        return STATUS_SUCCESS;
    PWSTR made = ExAllocatePoolWithTag(PagedPool, room, TEXT_TAG);
    if (!made)
        return STATUS_NO_MEMORY;
    *StringOut = (UNICODE_STRING){0, room, made};
    RtlCopyUnicodeString(StringOut, StringIn);
    return STATUS_SUCCESS;
}

/* A copy with a null behind it, in memory of its own. */
BOOLEAN RtlCreateUnicodeString(PUNICODE_STRING DestinationString, PCWSTR SourceString)
{
    KZ_INSIDE_AS_DRIVER();
    UNICODE_STRING text;
    RtlInitUnicodeString(&text, SourceString);
    return NT_SUCCESS(RtlDuplicateUnicodeString(RTL_DUPLICATE_UNICODE_STRING_NULL_TERMINATE | RTL_DUPLICATE_UNICODE_STRING_ALLOCATE_NULL_STRING, &text, DestinationString));
}

NTSTATUS RtlValidateUnicodeString(ULONG Flags, PCUNICODE_STRING String)
{
    bool is_valid = !Flags && (!String || (String->Length % 2 == 0 && String->MaximumLength % 2 == 0 && String->Length <= String->MaximumLength &&
                                           (String->Buffer || !String->MaximumLength)));
    return is_valid ? STATUS_SUCCESS : STATUS_INVALID_PARAMETER;
}

NTSTATUS RtlHashUnicodeString(PCUNICODE_STRING String, BOOLEAN CaseInSensitive, ULONG HashAlgorithm, PULONG HashValue)
{
    KZ_INSIDE_AS_DRIVER();
    if (!String || !HashValue || HashAlgorithm > HASH_STRING_ALGORITHM_X65599)
        return STATUS_INVALID_PARAMETER;
    ULONG hash = 0;
    for (USHORT at = 0; at < String->Length / sizeof(WCHAR); at++)
        hash = hash * 65599 + (CaseInSensitive ? kz_upcase(String->Buffer[at]) : String->Buffer[at]);
    *HashValue = hash;
    return STATUS_SUCCESS;
}

/* ---- ntstrsafe.h's counted strings. */
NTSTATUS RtlUnicodeStringInit(PUNICODE_STRING To, NTSTRSAFE_PCWSTR From)
{
    KZ_INSIDE_AS_DRIVER();
    return RtlInitUnicodeStringEx(To, From);
}

static NTSTATUS put(PUNICODE_STRING to, USHORT at, PCUNICODE_STRING from)
{
    USHORT fits = from->Length <= to->MaximumLength - at ? from->Length : (USHORT)(to->MaximumLength - at);
    if (fits)
        memmove((PUCHAR)to->Buffer + at, from->Buffer, fits);
    to->Length = at + fits;
    return fits == from->Length ? STATUS_SUCCESS : STATUS_BUFFER_OVERFLOW;
}

NTSTATUS RtlUnicodeStringCopy(PUNICODE_STRING To, PCUNICODE_STRING From)
{
    return put(To, 0, From);
}

NTSTATUS RtlUnicodeStringCopyString(PUNICODE_STRING To, NTSTRSAFE_PCWSTR From)
{
    KZ_INSIDE_AS_DRIVER();
    UNICODE_STRING text;
    RtlInitUnicodeString(&text, From);
    return put(To, 0, &text);
}

NTSTATUS RtlUnicodeStringCat(PUNICODE_STRING To, PCUNICODE_STRING From)
{
    return put(To, To->Length, From);
}

NTSTATUS RtlUnicodeStringCatString(PUNICODE_STRING To, NTSTRSAFE_PCWSTR From)
{
    KZ_INSIDE_AS_DRIVER();
    UNICODE_STRING text;
    RtlInitUnicodeString(&text, From);
    return put(To, To->Length, &text);
}
