/* What keys of the registry have: the kit's classes of information on keys and values, by name and one after the other. */
#include "kit/key.h"

#include "core/client.h"
#include "core/memory.h"
#include "core/told.h"
#include "lib/letters.h"
#include "kit/keyevent.h"
#include "kit/keyquery.h"

#include <stdlib.h>

/* A record that is made whole, and given as far as there is room for it: not at all where its head has none. */
typedef struct {
    uint64_t bytes[128];
    ULONG head, length;
} Record;

static NTSTATUS give(const void *record, ULONG head, ULONG whole, PVOID to, ULONG room, PULONG needed)
{
    *needed = whole;
    if (room < head)
        return STATUS_BUFFER_TOO_SMALL;
    memcpy(to, record, room < whole ? room : whole);
    return room < whole ? STATUS_BUFFER_OVERFLOW : STATUS_SUCCESS;
}

static NTSTATUS unknown(const char *call, int class, int most)
{
    if (class < 0 || class >= most)
        return STATUS_INVALID_PARAMETER;
    kz_tell(KZM_NOT_MODELLED, call, "class %d isn't modelled: it answers STATUS_NOT_SUPPORTED", class);
    return STATUS_NOT_SUPPORTED;
}

/* ---- Values. */
static NTSTATUS give_full(const KzValue *value, ULONG unit, PVOID to, ULONG room, PULONG needed)
{
    WCHAR name[256];
    ULONG length = kz_widen(name, value->name), place = offsetof(KEY_VALUE_FULL_INFORMATION, Name) + length;
    place = value->length ? (place + unit - 1) & ~(unit - 1) : place;
    PKEY_VALUE_FULL_INFORMATION made = memset(kz_memory(place + value->length + sizeof *made), 0, place + sizeof *made);
    *made = (KEY_VALUE_FULL_INFORMATION){0, value->type, value->length ? place : (ULONG)-1, value->length, length, {0}};
    memcpy(made->Name, name, length);
    memcpy((PUCHAR)made + place, value->data, value->length);
    NTSTATUS status = give(made, offsetof(KEY_VALUE_FULL_INFORMATION, Name), place + value->length, to, room, needed);
    free(made);
    return status;
}

static NTSTATUS give_data(const KzValue *value, bool is_aligned, PVOID to, ULONG room, PULONG needed)
{
    ULONG head = is_aligned ? offsetof(KEY_VALUE_PARTIAL_INFORMATION_ALIGN64, Data) : offsetof(KEY_VALUE_PARTIAL_INFORMATION, Data);
    uint8_t *made = kz_memory(head + value->length);
    const ULONG words[] = {0, value->type, value->length};
    memcpy(made, words + is_aligned, head);
    memcpy(made + head, value->data, value->length);
    NTSTATUS status = give(made, head, head + value->length, to, room, needed);
    free(made);
    return status;
}

static NTSTATUS give_basic(const KzValue *value, PVOID to, ULONG room, PULONG needed)
{
    Record record = {0};
    PKEY_VALUE_BASIC_INFORMATION made = (PVOID)record.bytes;
    made->Type = value->type;
    made->NameLength = kz_widen(made->Name, value->name);
    return give(made, offsetof(KEY_VALUE_BASIC_INFORMATION, Name), offsetof(KEY_VALUE_BASIC_INFORMATION, Name) + made->NameLength, to, room, needed);
}

NTSTATUS kz_show_value(const KzValue *value, KEY_VALUE_INFORMATION_CLASS class, PVOID information, ULONG length, PULONG needed, const char *call)
{
    switch (class) {
    case KeyValueBasicInformation:
        return give_basic(value, information, length, needed);
    case KeyValueFullInformation:
        return give_full(value, sizeof(ULONG), information, length, needed);
    case KeyValueFullInformationAlign64:
        return give_full(value, sizeof(ULONGLONG), information, length, needed);
    case KeyValuePartialInformation:
    case KeyValuePartialInformationAlign64:
        return give_data(value, class == KeyValuePartialInformationAlign64, information, length, needed);
    default:
        return unknown(call, class, MaxKeyValueInfoClass);
    }
}

static NTSTATUS perform_enumerate_value(void *given)
{
    const REG_ENUMERATE_VALUE_KEY_INFORMATION *asked = given;
    const KzKey *key = asked->Object;
    ULONG left = asked->Index;
    if (key->is_deleted)
        return STATUS_KEY_DELETED;
    for (const KzValue *one = kz_first_value(); one; one = one->next)
        if (one->name && kz_compare_texts(one->key, key->name, KZ_KEY_NAME) == 0 && left-- == 0)
            return kz_show_value(one, asked->KeyValueInformationClass, asked->KeyValueInformation, asked->Length, asked->ResultLength, "ZwEnumerateValueKey");
    return STATUS_NO_MORE_ENTRIES;
}

NTSTATUS ZwEnumerateValueKey(HANDLE KeyHandle, ULONG Index, KEY_VALUE_INFORMATION_CLASS KeyValueInformationClass, PVOID KeyValueInformation, ULONG Length,
                             PULONG ResultLength)
{
    KZ_CALL();
    REG_ENUMERATE_VALUE_KEY_INFORMATION asked = {kz_open_key_of(KeyHandle, __func__), Index, KeyValueInformationClass, KeyValueInformation, Length, ResultLength, NULL, NULL, NULL};
    if (!asked.Object)
        return STATUS_INVALID_HANDLE;
    return kz_touch_key(&(KzKeyEvent){RegNtPreEnumerateValueKey, RegNtPostEnumerateValueKey, &asked, &asked.CallContext, &asked.ObjectContext, asked.Object, &asked.Object}, perform_enumerate_value, &asked);
}

/* ---- Keys. Those below one come by their names. */
static const KzValue *key_below(const char *name, ULONG index)
{
    const KzValue *last = NULL;
    for (;;) {
        const KzValue *found = NULL;
        for (const KzValue *one = kz_first_value(); one; one = one->next) {
            const char *below = kz_name_below(name, one->key);
            if (!one->name && below && *below && !strchr(below, '/') && (!last || kz_compare_texts(one->key, last->key, KZ_KEY_NAME) > 0) && (!found || kz_compare_texts(one->key, found->key, KZ_KEY_NAME) < 0))
                found = one;
        }
        if (!found || index-- == 0)
            return found;
        last = found;
    }
}

static void most(ULONG *number, ULONG other)
{
    *number = other > *number ? other : *number;
}

static NTSTATUS give_sizes(const KzValue *itself, PVOID to, ULONG room, PULONG needed)
{
    WCHAR name[256];
    KEY_FULL_INFORMATION made = {.LastWriteTime.QuadPart = itself->written, .ClassOffset = (ULONG)-1};
    for (const KzValue *one = kz_first_value(); one; one = one->next) {
        const char *below = kz_name_below(itself->key, one->key);
        if (below && !*below && one->name) {
            made.Values++;
            most(&made.MaxValueNameLen, kz_widen(name, one->name));
            most(&made.MaxValueDataLen, one->length);
        } else if (below && *below && !one->name && !strchr(below, '/')) {
            made.SubKeys++;
            most(&made.MaxNameLen, kz_widen(name, below));
        }
    }
    return give(&made, offsetof(KEY_FULL_INFORMATION, Class), offsetof(KEY_FULL_INFORMATION, Class), to, room, needed);
}

static NTSTATUS show_key(const KzValue *itself, KEY_INFORMATION_CLASS class, PVOID to, ULONG room, PULONG needed, const char *call)
{
    Record record = {0};
    PKEY_BASIC_INFORMATION basic = (PVOID)record.bytes;
    PKEY_NODE_INFORMATION node = (PVOID)record.bytes;
    PKEY_NAME_INFORMATION whole = (PVOID)record.bytes;
    const char *name = strrchr(itself->key, '/') + 1;
    switch (class) {
    case KeyBasicInformation:
        basic->LastWriteTime.QuadPart = itself->written;
        basic->NameLength = kz_widen(basic->Name, name);
        return give(basic, offsetof(KEY_BASIC_INFORMATION, Name), offsetof(KEY_BASIC_INFORMATION, Name) + basic->NameLength, to, room, needed);
    case KeyNodeInformation:
        node->LastWriteTime.QuadPart = itself->written;
        node->ClassOffset = (ULONG)-1;
        node->NameLength = kz_widen(node->Name, name);
        return give(node, offsetof(KEY_NODE_INFORMATION, Name), offsetof(KEY_NODE_INFORMATION, Name) + node->NameLength, to, room, needed);
    case KeyFullInformation:
        return give_sizes(itself, to, room, needed);
    case KeyNameInformation:
        whole->NameLength = kz_widen(whole->Name, itself->key);
        return give(whole, offsetof(KEY_NAME_INFORMATION, Name), offsetof(KEY_NAME_INFORMATION, Name) + whole->NameLength, to, room, needed);
    default:
        return unknown(call, class, MaxKeyInfoClass);
    }
}

static NTSTATUS perform_query(void *given)
{
    const REG_QUERY_KEY_INFORMATION *asked = given;
    const KzKey *key = asked->Object;
    const KzValue *itself = kz_key_itself(key->name);
    if (key->is_deleted || !itself)
        return STATUS_KEY_DELETED;
    return show_key(itself, asked->KeyInformationClass, asked->KeyInformation, asked->Length, asked->ResultLength, "ZwQueryKey");
}

NTSTATUS ZwQueryKey(HANDLE KeyHandle, KEY_INFORMATION_CLASS KeyInformationClass, PVOID KeyInformation, ULONG Length, PULONG ResultLength)
{
    KZ_CALL();
    REG_QUERY_KEY_INFORMATION asked = {kz_open_key_of(KeyHandle, __func__), KeyInformationClass, KeyInformation, Length, ResultLength, NULL, NULL, NULL};
    if (!asked.Object)
        return STATUS_INVALID_HANDLE;
    return kz_touch_key(&(KzKeyEvent){RegNtPreQueryKey, RegNtPostQueryKey, &asked, &asked.CallContext, &asked.ObjectContext, asked.Object, &asked.Object}, perform_query, &asked);
}

static NTSTATUS perform_enumerate(void *given)
{
    const REG_ENUMERATE_KEY_INFORMATION *asked = given;
    const KzKey *key = asked->Object;
    if (key->is_deleted)
        return STATUS_KEY_DELETED;
    if (asked->KeyInformationClass == KeyNameInformation)
        return STATUS_INVALID_PARAMETER;
    const KzValue *found = key_below(key->name, asked->Index);
    return found ? show_key(found, asked->KeyInformationClass, asked->KeyInformation, asked->Length, asked->ResultLength, "ZwEnumerateKey") : STATUS_NO_MORE_ENTRIES;
}

NTSTATUS ZwEnumerateKey(HANDLE KeyHandle, ULONG Index, KEY_INFORMATION_CLASS KeyInformationClass, PVOID KeyInformation, ULONG Length, PULONG ResultLength)
{
    KZ_CALL();
    REG_ENUMERATE_KEY_INFORMATION asked = {kz_open_key_of(KeyHandle, __func__), Index, KeyInformationClass, KeyInformation, Length, ResultLength, NULL, NULL, NULL};
    if (!asked.Object)
        return STATUS_INVALID_HANDLE;
    return kz_touch_key(&(KzKeyEvent){RegNtPreEnumerateKey, RegNtPostEnumerateKey, &asked, &asked.CallContext, &asked.ObjectContext, asked.Object, &asked.Object}, perform_enumerate, &asked);
}
