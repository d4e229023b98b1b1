/* A filter that reads the registry as products do: its keys one after the other, its values in each class, names and sizes; it renames a key, secures one, deletes one; and a callback of it keeps
 * a context beside each key that it finds, and gives it back. */
#include <fltKernel.h>

static PFLT_FILTER gFilter;
static LARGE_INTEGER gCookie;
static BOOLEAN gTells;

/* ---- Reading. */
static HANDLE OpenBelow(_In_opt_ HANDLE Root, _In_ PCWSTR Name, _In_ BOOLEAN Create)
{
    UNICODE_STRING name;
    OBJECT_ATTRIBUTES attributes;
    HANDLE key = NULL;
    ULONG disposition;
    NTSTATUS status;

    RtlInitUnicodeString(&name, Name);
    InitializeObjectAttributes(&attributes, &name, OBJ_KERNEL_HANDLE | OBJ_CASE_INSENSITIVE, Root, NULL);
    status = Create ? ZwCreateKey(&key, KEY_ALL_ACCESS, &attributes, 0, NULL, REG_OPTION_NON_VOLATILE, &disposition) : ZwOpenKey(&key, KEY_ALL_ACCESS, &attributes);
    if (!NT_SUCCESS(status)) {
        DbgPrint("%ws: %08x\n", Name, status);
    }
    return key;
}

static VOID Put(_In_ HANDLE Key, _In_ PCWSTR Name, _In_ ULONG Type, _In_reads_bytes_(Length) const VOID *Data, _In_ ULONG Length)
{
    UNICODE_STRING name;

    RtlInitUnicodeString(&name, Name);
    ZwSetValueKey(Key, &name, 0, Type, (PVOID)Data, Length);
}

static VOID Enumerate(_In_ HANDLE Key)
{
    UCHAR room[128];
    PKEY_BASIC_INFORMATION basic = (PKEY_BASIC_INFORMATION)room;
    PKEY_VALUE_BASIC_INFORMATION value = (PKEY_VALUE_BASIC_INFORMATION)room;
    ULONG index, length;
    NTSTATUS status;

    for (index = 0; NT_SUCCESS(status = ZwEnumerateKey(Key, index, KeyBasicInformation, room, sizeof(room), &length)); index++) {
        DbgPrint("key %u: %.*ws, %u bytes\n", index, basic->NameLength / sizeof(WCHAR), basic->Name, length);
    }
    DbgPrint("then %08x\n", status);
    for (index = 0; NT_SUCCESS(status = ZwEnumerateValueKey(Key, index, KeyValueBasicInformation, room, sizeof(room), &length)); index++) {
        DbgPrint("value %u: %.*ws, type %u\n", index, value->NameLength / sizeof(WCHAR), value->Name, value->Type);
    }
    DbgPrint("then %08x\n", status);
}

/* How much room each class says, and what it gives where there is too little. */
static VOID Sizes(_In_ HANDLE Key)
{
    UNICODE_STRING level = RTL_CONSTANT_STRING(L"Level");
    UCHAR room[256];
    PKEY_FULL_INFORMATION full = (PKEY_FULL_INFORMATION)room;
    PKEY_NAME_INFORMATION name = (PKEY_NAME_INFORMATION)room;
    PKEY_VALUE_FULL_INFORMATION value = (PKEY_VALUE_FULL_INFORMATION)room;
    ULONG length = 0;
    NTSTATUS status = ZwQueryKey(Key, KeyFullInformation, room, sizeof(room), &length);

    DbgPrint("full: %08x, %u bytes, %u keys of %u, %u values of %u and %u\n", status, length, full->SubKeys, full->MaxNameLen, full->Values, full->MaxValueNameLen, full->MaxValueDataLen);
    status = ZwQueryKey(Key, KeyNameInformation, NULL, 0, &length);
    DbgPrint("name: %08x, %u bytes\n", status, length);
    status = ZwQueryKey(Key, KeyNameInformation, room, sizeof(room), &length);
    DbgPrint("name: %08x, %.*ws\n", status, name->NameLength / sizeof(WCHAR), name->Name);
    status = ZwQueryKey(Key, KeyBasicInformation, room, 20, &length);
    DbgPrint("basic: %08x, %u bytes\n", status, length);
    status = ZwQueryKey(Key, MaxKeyInfoClass, room, sizeof(room), &length);
    DbgPrint("no class: %08x\n", status);
    status = ZwQueryValueKey(Key, &level, KeyValueFullInformation, room, sizeof(room), &length);
    DbgPrint("value: %08x, %u bytes, data at %u: %u, %.*ws\n", status, length, value->DataOffset, *(PULONG)(room + value->DataOffset), value->NameLength / sizeof(WCHAR), value->Name);
    status = ZwQueryValueKey(Key, &level, KeyValuePartialInformation, room, 11, &length);
    DbgPrint("partial: %08x, %u bytes\n", status, length);
    status = ZwQueryValueKey(Key, &level, KeyValuePartialInformation, room, 14, &length);
    DbgPrint("partial: %08x, %u bytes\n", status, length);
}

/* ---- Changing. */
static VOID Change(_In_ HANDLE Key)
{
    UNICODE_STRING beta = RTL_CONSTANT_STRING(L"Beta"), alpha = RTL_CONSTANT_STRING(L"ALPHA"), level = RTL_CONSTANT_STRING(L"level");
    UCHAR room[64];
    SECURITY_DESCRIPTOR_RELATIVE descriptor = {.Revision = 1, .Control = SE_SELF_RELATIVE | SE_DACL_PRESENT}, *said = (SECURITY_DESCRIPTOR_RELATIVE *)room;
    struct {
        SECURITY_DESCRIPTOR_RELATIVE head;
        UCHAR system[12];
    } owned = {{.Revision = 1, .Control = SE_SELF_RELATIVE, .Owner = sizeof(SECURITY_DESCRIPTOR_RELATIVE)}, {1, 1, 0, 0, 0, 0, 0, 5, 18}};
    HANDLE gamma = OpenBelow(Key, L"gamma", FALSE), deep;
    ULONG length = 0;

    DbgPrint("renamed to one that is there: %08x\n", ZwRenameKey(gamma, &alpha));
    DbgPrint("renamed: %08x\n", ZwRenameKey(gamma, &beta));
    deep = OpenBelow(Key, L"beta\\deep", FALSE);
    DbgPrint("secured: %08x\n", ZwSetSecurityObject(gamma, DACL_SECURITY_INFORMATION, &descriptor));
    DbgPrint("little room: %08x, ", ZwQuerySecurityObject(gamma, DACL_SECURITY_INFORMATION, room, 4, &length));
    DbgPrint("%u bytes\n", length);
    DbgPrint("its security: %08x, ", ZwQuerySecurityObject(gamma, DACL_SECURITY_INFORMATION, room, sizeof(room), &length));
    DbgPrint("%u bytes, control %04x\n", length, said->Control);
    DbgPrint("owned: %08x\n", ZwSetSecurityObject(gamma, OWNER_SECURITY_INFORMATION, &owned));
    DbgPrint("its owner: %08x, ", ZwQuerySecurityObject(gamma, OWNER_SECURITY_INFORMATION, room, sizeof(room), &length));
    DbgPrint("%u bytes, control %04x, at %u\n", length, said->Control, said->Owner);
    DbgPrint("its list: %08x, ", ZwQuerySecurityObject(gamma, DACL_SECURITY_INFORMATION, room, sizeof(room), &length));
    DbgPrint("%u bytes, control %04x, at %u\n", length, said->Control, said->Owner);
    DbgPrint("both: %08x, ", ZwQuerySecurityObject(gamma, OWNER_SECURITY_INFORMATION | DACL_SECURITY_INFORMATION, room, sizeof(room), &length));
    DbgPrint("%u bytes, control %04x, at %u\n", length, said->Control, said->Owner);
    OpenBelow(gamma, L"none\\below", TRUE);
    DbgPrint("one with keys below it: %08x\n", ZwDeleteKey(gamma));
    DbgPrint("deleted: %08x\n", ZwDeleteKey(deep));
    DbgPrint("used then: %08x\n", ZwQueryValueKey(deep, &level, KeyValuePartialInformation, room, sizeof(room), &length));
    ZwClose(deep);
    ZwClose(gamma);
}

/* ---- Contexts of keys: the count of calls that saw one. */
static NTSTATUS OnKey(_In_ PVOID CallbackContext, _In_opt_ PVOID Argument1, _In_opt_ PVOID Argument2)
{
    REG_NOTIFY_CLASS class = (REG_NOTIFY_CLASS)(ULONG_PTR)Argument1;
    PREG_POST_OPERATION_INFORMATION post = Argument2;
    PULONG count;

    UNREFERENCED_PARAMETER(CallbackContext);
    if (!gTells) {
        return STATUS_SUCCESS;
    }
    if (class == RegNtPostOpenKeyEx && NT_SUCCESS(post->Status)) {
        count = ExAllocatePoolZero(PagedPool, sizeof(*count), 'xtcK');
        DbgPrint("kept: %08x\n", count != NULL ? CmSetCallbackObjectContext(post->Object, &gCookie, count, NULL) : STATUS_NO_MEMORY);
    } else if (class == RegNtCallbackObjectContextCleanup) {
        count = ((PREG_CALLBACK_CONTEXT_CLEANUP_INFORMATION)Argument2)->ObjectContext;
        DbgPrint("given back: it was seen %u times\n", *count);
        ExFreePoolWithTag(count, 'xtcK');
    } else if (class == RegNtPreRenameKey || class == RegNtPreEnumerateKey || class == RegNtPreEnumerateValueKey) {
        count = class == RegNtPreRenameKey ? ((PREG_RENAME_KEY_INFORMATION)Argument2)->ObjectContext : ((PREG_ENUMERATE_KEY_INFORMATION)Argument2)->ObjectContext;
        DbgPrint("before %u, %s\n", class, count != NULL ? "with its own" : "with none");
        *count += 1;
    } else if (class == RegNtPostRenameKey || class == RegNtPostEnumerateKey || class == RegNtPostEnumerateValueKey) {
        DbgPrint("behind %u: %08x, %s\n", class, post->Status, post->ObjectContext != NULL ? "with its own" : "with none");
    }
    return class == RegNtPreRenameKey && RtlEqualUnicodeString(((PREG_RENAME_KEY_INFORMATION)Argument2)->NewName, &(UNICODE_STRING)RTL_CONSTANT_STRING(L"Forbidden"), TRUE) ? STATUS_ACCESS_DENIED
                                                                                                                                                                              : STATUS_SUCCESS;
}

/* ---- Coming and going. */
static VOID Read(VOID)
{
    HANDLE key = OpenBelow(NULL, L"\\Registry\\Machine\\System\\CurrentControlSet\\Services\\hive", FALSE), below;
    ULONG level = 7;

    Put(key, L"Level", REG_DWORD, &level, sizeof(level));
    Put(key, L"Text", REG_SZ, L"abc", 8);
    ZwClose(OpenBelow(key, L"gamma", TRUE));
    ZwClose(OpenBelow(key, L"Alpha", TRUE));
    below = OpenBelow(key, L"gamma\\Deep", TRUE);
    Put(below, L"Level", REG_DWORD, &level, sizeof(level));
    ZwClose(below);
    Enumerate(key);
    Sizes(key);
    Change(key);
    Enumerate(key);
    ZwClose(key);
}

static NTSTATUS Unload(_In_ FLT_FILTER_UNLOAD_FLAGS Flags)
{
    HANDLE key = OpenBelow(NULL, L"\\Registry\\Machine\\Software", FALSE);

    UNREFERENCED_PARAMETER(Flags);
    CmUnRegisterCallback(gCookie);
    DbgPrint("taken off\n");
    if (key != NULL) {
        ZwClose(key);
    }
    FltUnregisterFilter(gFilter);
    return STATUS_SUCCESS;
}

static const FLT_OPERATION_REGISTRATION Callbacks[] = {{IRP_MJ_OPERATION_END}};
static const FLT_REGISTRATION Registration = {sizeof(FLT_REGISTRATION), FLT_REGISTRATION_VERSION, 0, NULL, Callbacks, Unload};

NTSTATUS DriverEntry(_In_ PDRIVER_OBJECT DriverObject, _In_ PUNICODE_STRING RegistryPath)
{
    UNICODE_STRING altitude = RTL_CONSTANT_STRING(L"385000");
    NTSTATUS status = FltRegisterFilter(DriverObject, &Registration, &gFilter);

    UNREFERENCED_PARAMETER(RegistryPath);
    if (NT_SUCCESS(status)) {
        Read();
        DbgPrint("registered: %08x\n", CmRegisterCallbackEx(OnKey, &altitude, DriverObject, NULL, &gCookie, NULL));
        gTells = TRUE;
        status = FltStartFiltering(gFilter);
    }
    return status;
}
