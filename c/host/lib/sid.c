/* Security identifiers that a driver makes in its own memory. */
#include "core/client.h"

static ULONG length_of(ULONG count)
{
    return (ULONG)offsetof(SID, SubAuthority) + count * (ULONG)sizeof(ULONG);
}

ULONG RtlLengthRequiredSid(ULONG SubAuthorityCount)
{
    return length_of(SubAuthorityCount);
}

NTSTATUS RtlInitializeSid(PSID Sid, PSID_IDENTIFIER_AUTHORITY IdentifierAuthority, UCHAR SubAuthorityCount)
{
    PISID sid = Sid;
    if (SubAuthorityCount > SID_MAX_SUB_AUTHORITIES)
        return STATUS_INVALID_PARAMETER;
    sid->Revision = SID_REVISION;
    sid->SubAuthorityCount = SubAuthorityCount;
    sid->IdentifierAuthority = *IdentifierAuthority;
    return STATUS_SUCCESS;
}

PULONG RtlSubAuthoritySid(PSID Sid, ULONG SubAuthority)
{
    return &((PISID)Sid)->SubAuthority[SubAuthority];
}

BOOLEAN RtlValidSid(PSID Sid)
{
    const SID *sid = Sid;
    return sid && sid->Revision == 1 && sid->SubAuthorityCount <= 15;
}

ULONG RtlLengthSid(PSID Sid)
{
    return (ULONG)offsetof(SID, SubAuthority) + (ULONG)((PISID)Sid)->SubAuthorityCount * (ULONG)sizeof(ULONG);
}

BOOLEAN RtlEqualSid(PSID Sid1, PSID Sid2)
{
    return RtlLengthSid(Sid1) == RtlLengthSid(Sid2) && memcmp(Sid1, Sid2, RtlLengthSid(Sid1)) == 0;
}

NTSTATUS RtlCopySid(ULONG DestinationSidLength, PSID DestinationSid, PSID SourceSid)
{
    if (DestinationSidLength < RtlLengthSid(SourceSid))
        return STATUS_BUFFER_TOO_SMALL;
    memcpy(DestinationSid, SourceSid, RtlLengthSid(SourceSid));
    return STATUS_SUCCESS;
}

NTSTATUS RtlConvertSidToUnicodeString(PUNICODE_STRING UnicodeString, PSID Sid, BOOLEAN AllocateDestinationString)
{
    KZ_INSIDE_AS_DRIVER();
    const SID *sid = Sid;
    char text[200];
    if (!RtlValidSid(Sid))
        return STATUS_INVALID_SID;
    int used = snprintf(text, sizeof text, "S-1-%u", sid->IdentifierAuthority.Value[5]);
    for (UCHAR at = 0; at < sid->SubAuthorityCount; at++)
        used += snprintf(text + used, sizeof text - (size_t)used, "-%u", sid->SubAuthority[at]);
    USHORT size = (USHORT)((size_t)used * sizeof(WCHAR));
    if (AllocateDestinationString) {
        UnicodeString->Buffer = ExAllocatePoolWithTag(PagedPool, size + sizeof(WCHAR), 'tSlR');
        UnicodeString->MaximumLength = UnicodeString->Buffer ? (USHORT)(size + sizeof(WCHAR)) : 0;
    }
    if (!UnicodeString->Buffer)
        return STATUS_NO_MEMORY;
    if (UnicodeString->MaximumLength < size)
        return STATUS_BUFFER_OVERFLOW;
    UnicodeString->Length = size;
    for (int at = 0; at < used; at++)
        UnicodeString->Buffer[at] = (WCHAR)text[at];
    if (UnicodeString->MaximumLength > size)
        UnicodeString->Buffer[used] = 0;
    return STATUS_SUCCESS;
}
