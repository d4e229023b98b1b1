/* Counted strings of bytes: the kit's Rtl calls. */
#include "core/client.h"
#include "lib/encoding.h"

VOID RtlInitAnsiString(PANSI_STRING DestinationString, PCSZ SourceString)
{
    USHORT length = SourceString ? (USHORT)strlen(SourceString) : 0;
    *DestinationString = (ANSI_STRING){length, SourceString ? (USHORT)(length + 1) : 0, (PCHAR)SourceString};
}

VOID RtlInitString(PSTRING DestinationString, PCSZ SourceString)
{
    RtlInitAnsiString(DestinationString, SourceString);
}

CHAR RtlUpperChar(CHAR Character)
{
    return (CHAR)(Character & 0x80 ? Character : RtlUpcaseUnicodeChar((WCHAR)Character));
}

VOID RtlUpperString(PSTRING DestinationString, const STRING *SourceString)
{
    USHORT length = SourceString->Length < DestinationString->MaximumLength ? SourceString->Length : DestinationString->MaximumLength;
    for (USHORT at = 0; at < length; at++)
        DestinationString->Buffer[at] = RtlUpperChar(SourceString->Buffer[at]);
    DestinationString->Length = length;
}

VOID RtlCopyString(PSTRING DestinationString, const STRING *SourceString)
{
    USHORT length = !SourceString ? 0 : SourceString->Length < DestinationString->MaximumLength ? SourceString->Length : DestinationString->MaximumLength;
    if (length)
        memmove(DestinationString->Buffer, SourceString->Buffer, length);
    DestinationString->Length = length;
}

NTSTATUS RtlAppendStringToString(PSTRING Destination, const STRING *Source)
{
    if (!Source->Length)
        return STATUS_SUCCESS;
    if (Destination->Length + Source->Length > Destination->MaximumLength)
        return STATUS_BUFFER_TOO_SMALL;
    memmove(Destination->Buffer + Destination->Length, Source->Buffer, Source->Length);
    Destination->Length = (USHORT)(Destination->Length + Source->Length);
    return STATUS_SUCCESS;
}

NTSTATUS RtlAppendAsciizToString(PSTRING Destination, PCSZ Source)
{
    STRING text;
    RtlInitString(&text, Source);
    return RtlAppendStringToString(Destination, &text);
}

LONG RtlCompareString(const STRING *String1, const STRING *String2, BOOLEAN CaseInSensitive)
{
    USHORT least = String1->Length < String2->Length ? String1->Length : String2->Length;
    for (USHORT at = 0; at < least; at++) {
        CHAR one = String1->Buffer[at], other = String2->Buffer[at];
        LONG apart = CaseInSensitive ? (UCHAR)RtlUpperChar(one) - (UCHAR)RtlUpperChar(other) : (UCHAR)one - (UCHAR)other;
        if (apart)
            return apart;
    }
    return String1->Length - String2->Length;
}

BOOLEAN RtlEqualString(const STRING *String1, const STRING *String2, BOOLEAN CaseInSensitive)
{
    return String1->Length == String2->Length && RtlCompareString(String1, String2, CaseInSensitive) == 0;
}

BOOLEAN RtlPrefixString(const STRING *String1, const STRING *String2, BOOLEAN CaseInSensitive)
{
    STRING begin = {String1->Length, String1->Length, String2->Buffer};
    return String1->Length <= String2->Length && RtlCompareString(String1, &begin, CaseInSensitive) == 0;
}

WCHAR RtlAnsiCharToUnicodeChar(PUCHAR *SourceCharacter)
{
    return kz_from_code_page((char)*(*SourceCharacter)++);
}
