/* A filter that says who asks: of each create the token's user, groups, privileges, elevation and integrity, and names of objects. */
#include <fltKernel.h>

static PFLT_FILTER gFilter;

static VOID ShowSid(_In_ PCSTR What, _In_ PSID Sid)
{
    UNICODE_STRING text;

    if (NT_SUCCESS(RtlConvertSidToUnicodeString(&text, Sid, TRUE))) {
        DbgPrint("%s %wZ\n", What, &text);
        RtlFreeUnicodeString(&text);
    }
}

static VOID ShowToken(_In_ PACCESS_TOKEN Token)
{
    PTOKEN_USER user;
    PTOKEN_GROUPS groups;
    PTOKEN_PRIVILEGES privileges;
    PTOKEN_ELEVATION elevation;
    PTOKEN_STATISTICS statistics;
    PVOID other;
    ULONG session = 99, at;

    if (NT_SUCCESS(SeQueryInformationToken(Token, TokenUser, (PVOID *)&user))) {
        ShowSid("user", user->User.Sid);
        ExFreePool(user);
    }
    if (NT_SUCCESS(SeQueryInformationToken(Token, TokenGroups, (PVOID *)&groups))) {
        for (at = 0; at < groups->GroupCount; at++) {
            ShowSid("    group", groups->Groups[at].Sid);
        }
        ExFreePool(groups);
    }
    if (NT_SUCCESS(SeQueryInformationToken(Token, TokenPrivileges, (PVOID *)&privileges))) {
        DbgPrint("    %u privileges, the first %u\n", privileges->PrivilegeCount, privileges->Privileges[0].Luid.LowPart);
        ExFreePool(privileges);
    }
    if (NT_SUCCESS(SeQueryInformationToken(Token, TokenElevation, (PVOID *)&elevation))) {
        DbgPrint("    elevated %u, admin %u\n", elevation->TokenIsElevated, SeTokenIsAdmin(Token));
        ExFreePool(elevation);
    }
    if (NT_SUCCESS(SeQueryInformationToken(Token, TokenStatistics, (PVOID *)&statistics))) {
        DbgPrint("    logon session %x\n", statistics->AuthenticationId.LowPart);
        ExFreePool(statistics);
    }
    SeQueryInformationToken(Token, TokenSessionId, (PVOID *)&session);
    DbgPrint("    session %u, linked token %08x\n", session, SeQueryInformationToken(Token, TokenLinkedToken, &other));
}

static VOID ShowIntegrity(VOID)
{
    HANDLE token;
    union {
        TOKEN_MANDATORY_LABEL label;
        UCHAR bytes[64];
    } room;
    ULONG length;
    NTSTATUS status = ZwOpenProcessTokenEx(ZwCurrentProcess(), GENERIC_READ, OBJ_KERNEL_HANDLE, &token);

    if (!NT_SUCCESS(status)) {
        return;
    }
    DbgPrint("    too small: %08x\n", ZwQueryInformationToken(token, TokenIntegrityLevel, &room, 4, &length));
    if (NT_SUCCESS(ZwQueryInformationToken(token, TokenIntegrityLevel, &room, sizeof(room), &length))) {
        ShowSid("    integrity", room.label.Label.Sid);
    }
    ZwClose(token);
}

static VOID ShowName(_In_ PCSTR What, _In_ PVOID Object)
{
    union {
        OBJECT_NAME_INFORMATION name;
        UCHAR bytes[512];
    } room;
    ULONG length;
    NTSTATUS status = ObQueryNameString(Object, &room.name, sizeof(room), &length);

    DbgPrint("%s: %08x %wZ, %u bytes; with no room %08x\n", What, status, &room.name.Name, length, ObQueryNameString(Object, &room.name, 8, &length));
}

static FLT_POSTOP_CALLBACK_STATUS PostCreate(_Inout_ PFLT_CALLBACK_DATA Data, _In_ PCFLT_RELATED_OBJECTS FltObjects, _In_opt_ PVOID CompletionContext, _In_ FLT_POST_OPERATION_FLAGS Flags)
{
    PACCESS_TOKEN token = PsReferencePrimaryToken(IoThreadToProcess(Data->Thread));
    POBJECT_NAME_INFORMATION dos;

    UNREFERENCED_PARAMETER(CompletionContext);
    UNREFERENCED_PARAMETER(Flags);
    ShowToken(token);
    ShowIntegrity();
    PsDereferencePrimaryToken(token);
    ShowName("a file", FltObjects->FileObject);
    ShowName("a process", PsGetCurrentProcess());
    ShowName("the driver", FltObjects->FileObject->DeviceObject);
    if (NT_SUCCESS(IoQueryFileDosDeviceName(FltObjects->FileObject, &dos))) {
        DbgPrint("by its letter: %wZ\n", &dos->Name);
        ExFreePool(dos);
    }
    return FLT_POSTOP_FINISHED_PROCESSING;
}

static NTSTATUS Unload(_In_ FLT_FILTER_UNLOAD_FLAGS Flags)
{
    UNREFERENCED_PARAMETER(Flags);
    FltUnregisterFilter(gFilter);
    return STATUS_SUCCESS;
}

static const FLT_OPERATION_REGISTRATION Callbacks[] = {{IRP_MJ_CREATE, 0, NULL, PostCreate}, {IRP_MJ_OPERATION_END}};
static const FLT_REGISTRATION Registration = {sizeof(FLT_REGISTRATION), FLT_REGISTRATION_VERSION, 0, NULL, Callbacks, Unload};

NTSTATUS DriverEntry(_In_ PDRIVER_OBJECT DriverObject, _In_ PUNICODE_STRING RegistryPath)
{
    NTSTATUS status = FltRegisterFilter(DriverObject, &Registration, &gFilter);

    UNREFERENCED_PARAMETER(RegistryPath);
    if (NT_SUCCESS(status)) {
        status = FltStartFiltering(gFilter);
        if (!NT_SUCCESS(status)) {
            FltUnregisterFilter(gFilter);
        }
    }
    return status;
}
