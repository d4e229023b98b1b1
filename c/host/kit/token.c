/* Tokens: a process's token is the process. Its user, whether it is elevated and its integrity are what requests say; its groups and its privileges follow from that. */
#include "kit/token.h"

#include "core/client.h"
#include "core/pool.h"
#include "core/process.h"
#include "core/told.h"
#include "filesystem/handle.h"
#include "manager/reference.h"

#include <stdlib.h>

#define SYSTEM "S-1-5-18"

PACCESS_TOKEN PsReferencePrimaryToken(PEPROCESS Process)
{
    KZ_INSIDE_ALONE();
    kz_take_object(Process, false, __func__);
    return (PACCESS_TOKEN)Process;
}

VOID PsDereferencePrimaryToken(PACCESS_TOKEN PrimaryToken)
{
    KzDereferenceObject(PrimaryToken, "PsDereferencePrimaryToken");
}

VOID SeCaptureSubjectContext(PSECURITY_SUBJECT_CONTEXT SubjectContext)
{
    KZ_INSIDE_ALONE();
    kz_uses_bytes(SubjectContext, sizeof *SubjectContext, KZU_WRITES);
    memset(SubjectContext, 0, sizeof *SubjectContext);
    SubjectContext->PrimaryToken = (PACCESS_TOKEN)PsGetCurrentProcess();
    SubjectContext->ProcessAuditId = kz_owe();
}

VOID SeReleaseSubjectContext(PSECURITY_SUBJECT_CONTEXT SubjectContext)
{
    KZ_INSIDE_ALONE();
    kz_uses_bytes(SubjectContext, sizeof *SubjectContext, KZU_WRITES);
    kz_pay(SubjectContext->ProcessAuditId, __func__);
    SubjectContext->PrimaryToken = SubjectContext->ProcessAuditId = NULL;
}

/* The numbers of a text S-1-5-..; how many there are behind the authority, or -1. */
static int parse_sid(const char *text, ULONG *numbers, UCHAR *authority)
{
    int count = 0;
    char *end;
    if (strncmp(text, "S-1-", 4) != 0)
        return -1;
    *authority = (UCHAR)strtoul(text + 4, &end, 10);
    while (*end == '-' && count < 15)
        numbers[count++] = (ULONG)strtoul(end + 1, &end, 10);
    return *end ? -1 : count;
}

bool kz_is_sid(const char *text)
{
    ULONG numbers[15];
    UCHAR authority;
    return parse_sid(text, numbers, &authority) > 0 && strlen(text) < 68;
}

static const char *user_of(const struct _EPROCESS *process)
{
    if (process == PsInitialSystemProcess)
        return SYSTEM;
    return *process->user ? process->user : "S-1-5-21-1-2-3-1000";
}

void kz_set_user(uint64_t id, const char *sid, bool is_elevated, ULONG integrity)
{
    PEPROCESS process = kz_process(id);
    snprintf(process->user, sizeof process->user, "%s", sid);
    process->is_elevated = is_elevated;
    process->integrity = integrity;
}

static bool is_system(const struct _EPROCESS *process)
{
    return strcmp(user_of(process), SYSTEM) == 0;
}

static bool is_elevated(const struct _EPROCESS *process)
{
    return process->is_elevated || is_system(process);
}

static ULONG integrity_of(const struct _EPROCESS *process)
{
    if (process->integrity)
        return process->integrity;
    return is_system(process) ? SECURITY_MANDATORY_SYSTEM_RID : is_elevated(process) ? SECURITY_MANDATORY_HIGH_RID : SECURITY_MANDATORY_MEDIUM_RID;
}

/* ---- A class of information: the structure, and behind it what it points to. */
typedef struct {
    uint8_t *bytes;
    size_t used;
} Room;

enum { MOST = 1024 };

static void *take(Room *room, size_t size)
{
    void *taken = room->bytes + room->used;
    room->used += (size + 7) & ~(size_t)7;
    return memset(taken, 0, size);
}

static PSID put_sid(Room *room, const char *text)
{
    ULONG numbers[15] = {0};
    UCHAR authority = 0;
    int count = parse_sid(text, numbers, &authority);
    PISID sid = take(room, offsetof(SID, SubAuthority) + (size_t)count * sizeof(ULONG));
    sid->Revision = SID_REVISION;
    sid->SubAuthorityCount = (UCHAR)count;
    sid->IdentifierAuthority.Value[5] = authority;
    memcpy(sid->SubAuthority, numbers, (size_t)count * sizeof(ULONG));
    return sid;
}

static void put_groups(Room *room, const struct _EPROCESS *process)
{
    static const char *const groups[] = {"S-1-1-0", "S-1-5-11", "S-1-5-32-545", "S-1-5-32-544"};
    ULONG count = is_elevated(process) ? 4 : 3;
    PTOKEN_GROUPS made = take(room, offsetof(TOKEN_GROUPS, Groups) + count * sizeof(SID_AND_ATTRIBUTES));
    made->GroupCount = count;
    for (ULONG at = 0; at < count; at++)
        made->Groups[at] = (SID_AND_ATTRIBUTES){put_sid(room, groups[at]), SE_GROUP_MANDATORY | SE_GROUP_ENABLED_BY_DEFAULT | SE_GROUP_ENABLED};
}

/* Each is enabled. */
static const LONG privileges[] = {SE_CHANGE_NOTIFY_PRIVILEGE, SE_SECURITY_PRIVILEGE, SE_BACKUP_PRIVILEGE, SE_RESTORE_PRIVILEGE, SE_DEBUG_PRIVILEGE, SE_MANAGE_VOLUME_PRIVILEGE, SE_TCB_PRIVILEGE};

static ULONG privileges_of(const struct _EPROCESS *process)
{
    return is_system(process) ? 7 : is_elevated(process) ? 6 : 1;
}

static void put_privileges(Room *room, const struct _EPROCESS *process)
{
    ULONG count = privileges_of(process);
    PTOKEN_PRIVILEGES made = take(room, offsetof(TOKEN_PRIVILEGES, Privileges) + count * sizeof(LUID_AND_ATTRIBUTES));
    made->PrivilegeCount = count;
    for (ULONG at = 0; at < count; at++)
        made->Privileges[at] = (LUID_AND_ATTRIBUTES){RtlConvertLongToLuid(privileges[at]), SE_PRIVILEGE_ENABLED_BY_DEFAULT | SE_PRIVILEGE_ENABLED};
}

static LUID session_of(const struct _EPROCESS *process)
{
    return RtlConvertLongToLuid(is_system(process) ? 0x3e7 : is_elevated(process) ? 0x20001 : 0x20000);
}

static void put_statistics(Room *room, const struct _EPROCESS *process)
{
    PTOKEN_STATISTICS made = take(room, sizeof *made);
    made->TokenId = RtlConvertLongToLuid((LONG)process->id);
    made->AuthenticationId = session_of(process);
    made->ExpirationTime.QuadPart = INT64_MAX;
    made->TokenType = TokenPrimary;
    made->GroupCount = is_elevated(process) ? 4 : 3;
    made->PrivilegeCount = privileges_of(process);
}

static void put_number(Room *room, ULONG number)
{
    memcpy(take(room, sizeof number), &number, sizeof number);
    room->used = sizeof number;
}

static void put_label(Room *room, const struct _EPROCESS *process)
{
    char text[32];
    PTOKEN_MANDATORY_LABEL made = take(room, sizeof *made);
    snprintf(text, sizeof text, "S-1-16-%u", integrity_of(process));
    made->Label = (SID_AND_ATTRIBUTES){put_sid(room, text), SE_GROUP_INTEGRITY | SE_GROUP_INTEGRITY_ENABLED};
}

/* False for what isn't modelled. */
static bool put(Room *room, const struct _EPROCESS *process, TOKEN_INFORMATION_CLASS class)
{
    switch (class) {
    case TokenUser:
        ((PTOKEN_USER)take(room, sizeof(TOKEN_USER)))->User.Sid = put_sid(room, user_of(process));
        return true;
    case TokenOwner:
        ((PTOKEN_OWNER)take(room, sizeof(TOKEN_OWNER)))->Owner = put_sid(room, is_elevated(process) ? "S-1-5-32-544" : user_of(process));
        return true;
    case TokenPrimaryGroup:
        ((PTOKEN_PRIMARY_GROUP)take(room, sizeof(TOKEN_PRIMARY_GROUP)))->PrimaryGroup = put_sid(room, is_system(process) ? SYSTEM : "S-1-5-21-1-2-3-513");
        return true;
    case TokenGroups:
        put_groups(room, process);
        return true;
    case TokenPrivileges:
        put_privileges(room, process);
        return true;
    case TokenStatistics:
        put_statistics(room, process);
        return true;
    case TokenIntegrityLevel:
        put_label(room, process);
        return true;
    case TokenType:
        put_number(room, TokenPrimary);
        return true;
    case TokenSessionId:
        put_number(room, PsGetProcessSessionId((PEPROCESS)process));
        return true;
    case TokenElevation:
        put_number(room, is_elevated(process));
        return true;
    case TokenElevationType:
        put_number(room, is_system(process) ? TokenElevationTypeDefault : is_elevated(process) ? TokenElevationTypeFull : TokenElevationTypeLimited);
        return true;
    default:
        return false;
    }
}

static NTSTATUS unknown(TOKEN_INFORMATION_CLASS class, const char *call)
{
    kz_tell(KZM_SECURITY, call, "class %d isn't modelled: it answers STATUS_NOT_SUPPORTED", (int)class);
    return STATUS_NOT_SUPPORTED;
}

/* The session comes in the pointer's own place. How an integrity level comes is said nowhere, so it is asked for by a handle. */
NTSTATUS SeQueryInformationToken(PACCESS_TOKEN Token, TOKEN_INFORMATION_CLASS TokenInformationClass, PVOID *TokenInformation)
{
    KZ_INSIDE_ALONE();
    kz_gives(TokenInformation);
    uint64_t scratch[MOST / sizeof(uint64_t)];
    Room room = {(uint8_t *)scratch, 0};
    if (TokenInformationClass == TokenSessionId)
        return SeQuerySessionIdToken(Token, (PULONG)TokenInformation);
    *TokenInformation = NULL;
    if (TokenInformationClass == TokenIntegrityLevel || !put(&room, (PEPROCESS)Token, TokenInformationClass))
        return unknown(TokenInformationClass, __func__);
    Room made = {ExAllocatePoolZero(PagedPool, room.used, 'kTeS'), 0};
    if (!made.bytes)
        return STATUS_INSUFFICIENT_RESOURCES;
    put(&made, (PEPROCESS)Token, TokenInformationClass);
    *TokenInformation = made.bytes;
    return STATUS_SUCCESS;
}

NTSTATUS ZwQueryInformationToken(HANDLE TokenHandle, TOKEN_INFORMATION_CLASS TokenInformationClass, PVOID TokenInformation, ULONG Length, PULONG ResultLength)
{
    KZ_INSIDE_ALONE();
    kz_uses_bytes(TokenInformation, TokenInformation ? Length : 0, KZU_WRITES);
    kz_gives(ResultLength);
    uint64_t scratch[MOST / sizeof(uint64_t)];
    Room room = {(uint8_t *)scratch, 0}, made = {TokenInformation, 0};
    PEPROCESS token = kz_object_of(TokenHandle);
    if (!token)
        return STATUS_INVALID_HANDLE;
    if (!put(&room, token, TokenInformationClass))
        return unknown(TokenInformationClass, __func__);
    *ResultLength = (ULONG)room.used;
    if (Length < room.used)
        return STATUS_BUFFER_TOO_SMALL;
    put(&made, token, TokenInformationClass);
    return STATUS_SUCCESS;
}

NTSTATUS ZwOpenProcessTokenEx(HANDLE ProcessHandle, ACCESS_MASK DesiredAccess, ULONG HandleAttributes, PHANDLE TokenHandle)
{
    KZ_INSIDE();
    kz_uses_all();
    (void)DesiredAccess;
    PEPROCESS process = ProcessHandle == ZwCurrentProcess() ? PsGetCurrentProcess() : kz_object_of(ProcessHandle);
    *TokenHandle = process ? kz_open_handle(process, "a token", HandleAttributes) : NULL;
    return process ? STATUS_SUCCESS : STATUS_INVALID_HANDLE;
}

NTSTATUS SeQuerySessionIdToken(PACCESS_TOKEN Token, PULONG SessionId)
{
    *SessionId = PsGetProcessSessionId((PEPROCESS)Token);
    return STATUS_SUCCESS;
}

NTSTATUS SeQueryAuthenticationIdToken(PACCESS_TOKEN Token, PLUID AuthenticationId)
{
    *AuthenticationId = session_of(Token);
    return STATUS_SUCCESS;
}

BOOLEAN SeTokenIsAdmin(PACCESS_TOKEN Token)
{
    return is_elevated(Token);
}

/* No token is restricted. */
BOOLEAN SeTokenIsRestricted(PACCESS_TOKEN Token)
{
    (void)Token;
    return FALSE;
}

/* The kernel has each privilege. */
BOOLEAN SeSinglePrivilegeCheck(LUID PrivilegeValue, KPROCESSOR_MODE PreviousMode)
{
    KZ_INSIDE_ALONE();
    ULONG count = privileges_of(PsGetCurrentProcess());
    bool has = PreviousMode == KernelMode;
    for (ULONG at = 0; at < count; at++)
        has |= PrivilegeValue.HighPart == 0 && PrivilegeValue.LowPart == (ULONG)privileges[at];
    return has;
}
