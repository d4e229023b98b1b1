/* Values of the registry's keys: by name, and a table of them at once. What is done with a value is what its callbacks' structure says. */
#include "kit/key.h"

#include "core/client.h"
#include "core/irql.h"
#include "core/told.h"
#include "lib/letters.h"
#include "kit/keyevent.h"
#include "kit/keyquery.h"

#include <stdlib.h>

static NTSTATUS perform_query(void *given)
{
    char name[256];
    const REG_QUERY_VALUE_KEY_INFORMATION *asked = given;
    const KzKey *key = asked->Object;
    if (key->is_deleted)
        return STATUS_KEY_DELETED;
    kz_narrow(name, sizeof name, asked->ValueName);
    const KzValue *found = *kz_find_value(key->name, name);
    return found ? kz_show_value(found, asked->KeyValueInformationClass, asked->KeyValueInformation, asked->Length, asked->ResultLength, "ZwQueryValueKey") : STATUS_OBJECT_NAME_NOT_FOUND;
}

NTSTATUS ZwQueryValueKey(HANDLE KeyHandle, PUNICODE_STRING ValueName, KEY_VALUE_INFORMATION_CLASS KeyValueInformationClass, PVOID KeyValueInformation,
                         ULONG Length, PULONG ResultLength)
{
    KZ_CALL();
    REG_QUERY_VALUE_KEY_INFORMATION asked = {kz_open_key_of(KeyHandle, __func__), ValueName, KeyValueInformationClass, KeyValueInformation, Length, ResultLength, NULL, NULL, NULL};
    if (!asked.Object)
        return STATUS_INVALID_HANDLE;
    return kz_touch_key(&(KzKeyEvent){RegNtQueryValueKey, RegNtPostQueryValueKey, &asked, &asked.CallContext, &asked.ObjectContext, asked.Object, &asked.Object}, perform_query, &asked);
}

static NTSTATUS perform_set(void *given)
{
    char name[256];
    const REG_SET_VALUE_KEY_INFORMATION *asked = given;
    const KzKey *key = asked->Object;
    if (key->is_deleted)
        return STATUS_KEY_DELETED;
    kz_narrow(name, sizeof name, asked->ValueName);
    kz_put_value(key->name, name, asked->Type, asked->Data, asked->DataSize);
    return STATUS_SUCCESS;
}

NTSTATUS ZwSetValueKey(HANDLE KeyHandle, PUNICODE_STRING ValueName, ULONG TitleIndex, ULONG Type, PVOID Data, ULONG DataSize)
{
    KZ_CALL();
    REG_SET_VALUE_KEY_INFORMATION asked = {kz_open_key_of(KeyHandle, __func__), ValueName, TitleIndex, Type, Data, DataSize, NULL, NULL, NULL};
    if (!asked.Object)
        return STATUS_INVALID_HANDLE;
    return kz_touch_key(&(KzKeyEvent){RegNtPreSetValueKey, RegNtPostSetValueKey, &asked, &asked.CallContext, &asked.ObjectContext, asked.Object, &asked.Object}, perform_set, &asked);
}

static NTSTATUS perform_delete_value(void *given)
{
    char name[256];
    const REG_DELETE_VALUE_KEY_INFORMATION *asked = given;
    const KzKey *key = asked->Object;
    if (key->is_deleted)
        return STATUS_KEY_DELETED;
    kz_narrow(name, sizeof name, asked->ValueName);
    KzValue **at = kz_find_value(key->name, name);
    if (!*at)
        return STATUS_OBJECT_NAME_NOT_FOUND;
    kz_drop_value(at);
    return STATUS_SUCCESS;
}

NTSTATUS ZwDeleteValueKey(HANDLE KeyHandle, PUNICODE_STRING ValueName)
{
    KZ_CALL();
    REG_DELETE_VALUE_KEY_INFORMATION asked = {kz_open_key_of(KeyHandle, __func__), ValueName, NULL, NULL, NULL};
    if (!asked.Object)
        return STATUS_INVALID_HANDLE;
    return kz_touch_key(&(KzKeyEvent){RegNtPreDeleteValueKey, RegNtPostDeleteValueKey, &asked, &asked.CallContext, &asked.ObjectContext, asked.Object, &asked.Object}, perform_delete_value, &asked);
}

/* ---- A table of values at once. */
static NTSTATUS query_direct(const KzValue *value, const RTL_QUERY_REGISTRY_TABLE *row)
{
    if (value->type == REG_SZ || value->type == REG_EXPAND_SZ || value->type == REG_MULTI_SZ) {
        PUNICODE_STRING to = row->EntryContext;
        UNICODE_STRING text = {(USHORT)(value->length - sizeof(WCHAR)), (USHORT)value->length, (PWSTR)value->data};
        if (!to->Buffer) {
            to->Buffer = ExAllocatePoolWithTag(PagedPool, value->length, 'qgeR');
            to->MaximumLength = (USHORT)value->length;
            if (!to->Buffer)
                return STATUS_NO_MEMORY;
        }
        if (to->MaximumLength < text.Length)
            return STATUS_BUFFER_TOO_SMALL;
        RtlCopyUnicodeString(to, &text);
        return STATUS_SUCCESS;
    }
    memcpy(row->EntryContext, value->data, value->length);
    return STATUS_SUCCESS;
}

static NTSTATUS query_row(const char *key, const RTL_QUERY_REGISTRY_TABLE *row, PVOID context)
{
    char name[256];
    UNICODE_STRING text;
    RtlInitUnicodeString(&text, row->Name);
    kz_narrow(name, sizeof name, &text);
    KzValue *found = *kz_find_value(key, name);
    if (found && row->Flags & RTL_QUERY_REGISTRY_DIRECT)
        return query_direct(found, row);
    if (found)
        return KZ_CALL_DRIVER(row->QueryRoutine, row->Name, found->type, found->data, found->length, context, row->EntryContext);
    if (row->Flags & RTL_QUERY_REGISTRY_REQUIRED)
        return STATUS_OBJECT_NAME_NOT_FOUND;
    if (row->DefaultType & 0xff && row->Flags & RTL_QUERY_REGISTRY_DIRECT) {
        KzValue made = {.type = row->DefaultType & 0xff, .length = row->DefaultLength ? row->DefaultLength : 4, .data = row->DefaultData};
        if (made.type == REG_SZ && !row->DefaultLength)
            made.length = (ULONG)((KzWcslen(row->DefaultData) + 1) * sizeof(WCHAR));
        return query_direct(&made, row);
    }
    return STATUS_SUCCESS;
}

/* Where a path begins that isn't whole; one of a device map or of a user is a limit. */
static NTSTATUS open_relative(ULONG relative, PCWSTR path, PHANDLE handle, const char *call)
{
    static const char *const roots[] = {"", "", "/Registry/Machine/System/CurrentControlSet/Control/", "/Registry/Machine/Software/Microsoft/Windows NT/CurrentVersion/"};
    WCHAR whole[400];
    ULONG which = relative & 0xff, length, more = (ULONG)(KzWcsnlen(path, 250) * sizeof(WCHAR));
    OBJECT_ATTRIBUTES attributes;
    UNICODE_STRING text = {0, sizeof whole, whole};
    if (which >= sizeof roots / sizeof roots[0]) {
        kz_tell(KZM_NOT_MODELLED, call, "a path relative to %u isn't modelled: it answers STATUS_NOT_SUPPORTED", which);
        return STATUS_NOT_SUPPORTED;
    }
    length = kz_widen(whole, roots[which]);
    memcpy((PUCHAR)whole + length, path, more);
    text.Length = (USHORT)(length + more);
    InitializeObjectAttributes(&attributes, &text, OBJ_KERNEL_HANDLE, NULL, NULL);
    return ZwOpenKey(handle, KEY_READ, &attributes);
}

NTSTATUS RtlQueryRegistryValues(ULONG RelativeTo, PCWSTR Path, PRTL_QUERY_REGISTRY_TABLE QueryTable, PVOID Context, PVOID Environment)
{
    kz_check_irql(__func__); /* its routines are the driver's, and run as its code does */
    (void)Environment;
    HANDLE handle = (HANDLE)Path;
    bool is_own = !(RelativeTo & RTL_REGISTRY_HANDLE);
    NTSTATUS status = is_own ? open_relative(RelativeTo, Path, &handle, __func__) : kz_open_key_of(handle, __func__) ? STATUS_SUCCESS : STATUS_INVALID_HANDLE;
    if (!NT_SUCCESS(status))
        return status == STATUS_OBJECT_NAME_NOT_FOUND && RelativeTo & RTL_REGISTRY_OPTIONAL ? STATUS_SUCCESS : status;
    for (; NT_SUCCESS(status) && (QueryTable->QueryRoutine || QueryTable->Name); QueryTable++)
        if (QueryTable->Flags & RTL_QUERY_REGISTRY_SUBKEY)
            kz_tell(KZM_NOT_MODELLED, __func__, "a row of a key below isn't modelled: it is left out");
        else
            status = query_row(((KzKey *)handle)->name, QueryTable, Context);
    if (is_own)
        ZwClose(handle);
    return status;
}
