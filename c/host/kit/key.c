/* Keys of the registry: opened, made, closed, renamed, deleted, with their security, and their names for callbacks. */
#include "kit/key.h"

#include "core/client.h"
#include "core/clock.h"
#include "core/memory.h"
#include "core/piece.h"
#include "core/told.h"
#include "lib/descriptor.h"
#include "lib/letters.h"
#include "kit/fltcreate.h"
#include "kit/keyevent.h"
#include "kit/registry.h"

#include <ctype.h>
#include <stdlib.h>

#define SYSTEM_KEY "/REGISTRY/MACHINE/SYSTEM/"

/* ---- Opening. The control set that is current is the first one; a name that isn't whole is one below Services. */
static void whole_name(char *to, const KzKey *root, PCUNICODE_STRING given)
{
    char said[256], name[KZ_KEY_NAME];
    kz_narrow(said, sizeof said, given);
    size_t length = strlen(said);
    while (length && said[length - 1] == '/')
        said[--length] = 0;
    if (root || *said != '/')
        snprintf(name, sizeof name, "%.140s%s%s", root ? root->name : KZ_SERVICES, *said ? "/" : "", said);
    else
        snprintf(name, sizeof name, "%s", said);
    const char *below = kz_name_below(SYSTEM_KEY "CurrentControlSet", name);
    if (below)
        snprintf(to, KZ_KEY_NAME, "%s%s%s", SYSTEM_KEY "ControlSet001", *below ? "/" : "", below);
    else
        memcpy(to, name, sizeof name);
}

/* What is asked for, and the key that came of it. */
typedef struct {
    char name[KZ_KEY_NAME];
    bool is_made, was_there;
    PVOID opened;
} Opening;

/* A key is made directly below one that is there. */
static bool has_parent(const char *name)
{
    const char *last = strrchr(name, '/');
    char parent[KZ_KEY_NAME];
    snprintf(parent, sizeof parent, "%.*s", last ? (int)(last - name) : 0, name);
    return kz_key_itself(parent) != NULL;
}

static NTSTATUS perform_open(void *given)
{
    Opening *opening = given;
    KzValue *itself = kz_key_itself(opening->name);
    opening->was_there = itself != NULL;
    if (!opening->is_made && !itself)
        return STATUS_OBJECT_NAME_NOT_FOUND;
    if (!itself && !has_parent(opening->name))
        return STATUS_OBJECT_NAME_NOT_FOUND;
    if (!itself)
        itself = kz_add_key(opening->name);
    KzKey *made = kz_memory(sizeof *made);
    *made = (KzKey){.place = kz_me->place};
    snprintf(made->name, sizeof made->name, "%s", itself->key);
    kz_add_open_key(made);
    opening->opened = made;
    return STATUS_SUCCESS;
}

static NTSTATUS open_key(PHANDLE handle, ACCESS_MASK access, POBJECT_ATTRIBUTES attributes, PULONG disposition, const char *call)
{
    KzKey *root = attributes->RootDirectory ? kz_open_key_of(attributes->RootDirectory, call) : NULL;
    bool is_made = disposition != NULL;
    Opening opening = {.is_made = is_made};
    *handle = NULL;
    whole_name(opening.name, root, attributes->ObjectName);
    REG_CREATE_KEY_INFORMATION_V1 information = {.CompleteName = attributes->ObjectName, .RootObject = root, .DesiredAccess = access, .GrantedAccess = access, .ResultObject = &opening.opened, .Disposition = disposition,
                                                 .Version = 1, .RemainingName = attributes->ObjectName, .Attributes = attributes->Attributes, .CheckAccessMode = ExGetPreviousMode()};
    KzKeyEvent event = {is_made ? RegNtPreCreateKeyEx : RegNtPreOpenKeyEx, is_made ? RegNtPostCreateKeyEx : RegNtPostOpenKeyEx, &information, &information.CallContext, &information.RootObjectContext, root, &opening.opened};
    NTSTATUS status = kz_touch_key(&event, perform_open, &opening);
    *handle = NT_SUCCESS(status) ? opening.opened : NULL;
    if (is_made)
        *disposition = opening.was_there ? REG_OPENED_EXISTING_KEY : REG_CREATED_NEW_KEY;
    return status;
}

NTSTATUS ZwOpenKey(PHANDLE KeyHandle, ACCESS_MASK DesiredAccess, POBJECT_ATTRIBUTES ObjectAttributes)
{
    KZ_CALL();
    return open_key(KeyHandle, DesiredAccess, ObjectAttributes, NULL, __func__);
}

NTSTATUS ZwOpenKeyEx(PHANDLE KeyHandle, ACCESS_MASK DesiredAccess, POBJECT_ATTRIBUTES ObjectAttributes, ULONG OpenOptions)
{
    KZ_CALL();
    (void)OpenOptions;
    return open_key(KeyHandle, DesiredAccess, ObjectAttributes, NULL, __func__);
}

NTSTATUS ZwCreateKey(PHANDLE KeyHandle, ACCESS_MASK DesiredAccess, POBJECT_ATTRIBUTES ObjectAttributes, ULONG TitleIndex, PUNICODE_STRING Class,
                     ULONG CreateOptions, PULONG Disposition)
{
    KZ_CALL();
    (void)TitleIndex, (void)Class, (void)CreateOptions;
    ULONG disposition;
    return open_key(KeyHandle, DesiredAccess, ObjectAttributes, Disposition ? Disposition : &disposition, __func__);
}

NTSTATUS kz_make_key(PHANDLE key, ACCESS_MASK access, POBJECT_ATTRIBUTES attributes, PULONG disposition)
{
    const UNICODE_STRING whole = *attributes->ObjectName;
    UNICODE_STRING part = whole;
    OBJECT_ATTRIBUTES leads = *attributes;
    leads.ObjectName = &part;
    NTSTATUS status = ZwCreateKey(key, access, attributes, 0, NULL, 0, disposition);
    if (status != STATUS_OBJECT_NAME_NOT_FOUND)
        return status;
    for (part.Length = sizeof(WCHAR); part.Length < whole.Length; part.Length += sizeof(WCHAR)) {
        HANDLE parent;
        if (whole.Buffer[part.Length / sizeof(WCHAR)] == L'\\' && NT_SUCCESS(ZwCreateKey(&parent, KEY_CREATE_SUB_KEY, &leads, 0, NULL, 0, NULL)))
            ZwClose(parent);
    }
    return ZwCreateKey(key, access, attributes, 0, NULL, 0, disposition);
}

/* ---- Closing: what callbacks keep beside it is given back to them last. */
static NTSTATUS perform_close(void *key)
{
    kz_take_open_key(key);
    return STATUS_SUCCESS;
}

NTSTATUS ZwClose(HANDLE Handle)
{
    KZ_CALL();
    if (kz_close_handle(Handle))
        return STATUS_SUCCESS;
    KzKey *gone = kz_open_key_of(Handle, __func__);
    if (!gone)
        return STATUS_INVALID_HANDLE;
    PVOID none = NULL;
    REG_KEY_HANDLE_CLOSE_INFORMATION information = {.Object = gone};
    NTSTATUS status = kz_touch_key(&(KzKeyEvent){RegNtPreKeyHandleClose, RegNtPostKeyHandleClose, &information, &information.CallContext, &information.ObjectContext, gone, &none}, perform_close, gone);
    if (kz_is_key(gone))
        return status;
    kz_give_back_contexts(gone);
    kz_give_back(gone->said.Buffer);
    free(gone);
    return status;
}

/* ---- Flushing, renaming, deleting. */
static NTSTATUS nothing(void *key)
{
    return ((const KzKey *)key)->is_deleted ? STATUS_KEY_DELETED : STATUS_SUCCESS;
}

NTSTATUS ZwFlushKey(HANDLE KeyHandle)
{
    KZ_INSIDE();
    kz_uses_all();
    REG_FLUSH_KEY_INFORMATION asked = {.Object = kz_open_key_of(KeyHandle, __func__)};
    if (!asked.Object)
        return STATUS_INVALID_HANDLE;
    return kz_touch_key(&(KzKeyEvent){RegNtPreFlushKey, RegNtPostFlushKey, &asked, &asked.CallContext, &asked.ObjectContext, asked.Object, &asked.Object}, nothing, asked.Object);
}

/* The new name is that of its last part; one that is another key's is refused. */
static NTSTATUS perform_rename(void *given)
{
    const REG_RENAME_KEY_INFORMATION *asked = given;
    KzKey *key = asked->Object;
    char said[256], name[KZ_KEY_NAME];
    if (key->is_deleted)
        return STATUS_KEY_DELETED;
    kz_narrow(said, sizeof said, asked->NewName);
    if (!*said || strchr(said, '/'))
        return STATUS_INVALID_PARAMETER;
    snprintf(name, sizeof name, "%.*s/%.120s", (int)(strrchr(key->name, '/') - key->name), key->name, said);
    if (kz_compare_texts(name, key->name, KZ_KEY_NAME) != 0 && kz_key_itself(name))
        return STATUS_CANNOT_DELETE;
    kz_rename_key(key->name, name);
    kz_key_itself(name)->written = kz_time();
    return STATUS_SUCCESS;
}

NTSTATUS ZwRenameKey(HANDLE KeyHandle, PUNICODE_STRING NewName)
{
    KZ_CALL();
    REG_RENAME_KEY_INFORMATION asked = {.Object = kz_open_key_of(KeyHandle, __func__), .NewName = NewName};
    if (!asked.Object)
        return STATUS_INVALID_HANDLE;
    return kz_touch_key(&(KzKeyEvent){RegNtPreRenameKey, RegNtPostRenameKey, &asked, &asked.CallContext, &asked.ObjectContext, asked.Object, &asked.Object}, perform_rename, &asked);
}

static bool has_below(const char *name)
{
    for (const KzValue *one = kz_first_value(); one; one = one->next) {
        const char *below = kz_name_below(name, one->key);
        if (below && *below)
            return true;
    }
    return false;
}

/* With its values; one that has keys below it stays. */
static NTSTATUS perform_delete(void *given)
{
    KzKey *key = ((PREG_DELETE_KEY_INFORMATION)given)->Object;
    if (key->is_deleted)
        return STATUS_KEY_DELETED;
    if (has_below(key->name))
        return STATUS_CANNOT_DELETE;
    kz_drop_key(key->name);
    for (KzKey *other = kz_open_keys(); other; other = other->next)
        other->is_deleted |= kz_compare_texts(other->name, key->name, KZ_KEY_NAME) == 0;
    return STATUS_SUCCESS;
}

NTSTATUS ZwDeleteKey(HANDLE KeyHandle)
{
    KZ_CALL();
    REG_DELETE_KEY_INFORMATION asked = {kz_open_key_of(KeyHandle, __func__), NULL, NULL, NULL};
    if (!asked.Object)
        return STATUS_INVALID_HANDLE;
    return kz_touch_key(&(KzKeyEvent){RegNtPreDeleteKey, RegNtPostDeleteKey, &asked, &asked.CallContext, &asked.ObjectContext, asked.Object, &asked.Object}, perform_delete, &asked);
}

/* ---- Security: the parts that were set; where none were, nobody's. */
static NTSTATUS perform_query_security(void *given)
{
    const REG_QUERY_KEY_SECURITY_INFORMATION *asked = given;
    const KzKey *key = asked->Object;
    const KzValue *itself = kz_key_itself(key->name);
    if (key->is_deleted || !itself)
        return STATUS_KEY_DELETED;
    uint8_t *made = kz_memory(itself->length + sizeof KZ_NO_DESCRIPTOR);
    ULONG length = (ULONG)kz_join_descriptors(itself->length ? itself->data : KZ_NO_DESCRIPTOR, *asked->SecurityInformation, NULL, 0, made);
    bool has_room = *asked->Length >= length;
    *asked->Length = length;
    if (has_room)
        memcpy(asked->SecurityDescriptor, made, length);
    free(made);
    return has_room ? STATUS_SUCCESS : STATUS_BUFFER_TOO_SMALL;
}

NTSTATUS kz_key_security(HANDLE handle, SECURITY_INFORMATION what, PSECURITY_DESCRIPTOR descriptor, ULONG length, PULONG needed)
{
    ULONG room = length;
    REG_QUERY_KEY_SECURITY_INFORMATION asked = {.Object = handle, .SecurityInformation = &what, .SecurityDescriptor = descriptor, .Length = &room};
    const KzKeyEvent event = {RegNtPreQueryKeySecurity, RegNtPostQueryKeySecurity, &asked, &asked.CallContext, &asked.ObjectContext, asked.Object, &asked.Object};
    NTSTATUS status = kz_touch_key(&event, perform_query_security, &asked);
    *needed = room;
    return status;
}

static NTSTATUS perform_set_security(void *given)
{
    const REG_SET_KEY_SECURITY_INFORMATION *asked = given;
    const KzKey *key = asked->Object;
    KzValue *itself = kz_key_itself(key->name);
    ULONG length = RtlLengthSecurityDescriptor(asked->SecurityDescriptor);
    SECURITY_INFORMATION what = *asked->SecurityInformation;
    if (key->is_deleted || !itself)
        return STATUS_KEY_DELETED;
    if (!kz_is_descriptor(asked->SecurityDescriptor, length))
        return STATUS_INVALID_SECURITY_DESCR;
    uint8_t *made = kz_memory(length + itself->length + sizeof KZ_NO_DESCRIPTOR);
    itself->length = (ULONG)kz_join_descriptors(asked->SecurityDescriptor, what, itself->length ? itself->data : KZ_NO_DESCRIPTOR, ~what, made);
    free(itself->data);
    itself->data = made;
    return STATUS_SUCCESS;
}

NTSTATUS kz_set_key_security(HANDLE handle, SECURITY_INFORMATION what, PSECURITY_DESCRIPTOR descriptor)
{
    REG_SET_KEY_SECURITY_INFORMATION asked = {.Object = handle, .SecurityInformation = &what, .SecurityDescriptor = descriptor};
    const KzKeyEvent event = {RegNtPreSetKeySecurity, RegNtPostSetKeySecurity, &asked, &asked.CallContext, &asked.ObjectContext, asked.Object, &asked.Object};
    return kz_touch_key(&event, perform_set_security, &asked);
}

/* ---- Names of keys, for callbacks. */
/* The same for each handle of one key. */
static ULONG_PTR number_of(const char *name)
{
    ULONG_PTR number = 5381;
    for (; *name; name++)
        number = number * 33 + (UCHAR)tolower((UCHAR)*name);
    return number;
}

NTSTATUS CmCallbackGetKeyObjectIDEx(PLARGE_INTEGER Cookie, PVOID Object, PULONG_PTR ObjectID, PCUNICODE_STRING *ObjectName, ULONG Flags)
{
    KZ_INSIDE_ALONE();
    kz_uses_object(Object, KZU_READS);
    kz_gives(ObjectID);
    kz_gives(ObjectName);
    (void)Cookie;
    const char *name = kz_key_name(Object);
    if (!name || Flags)
        return STATUS_INVALID_PARAMETER;
    if (ObjectID)
        *ObjectID = number_of(name);
    if (!ObjectName)
        return STATUS_SUCCESS;
    size_t length = strlen(name) * sizeof(WCHAR);
    PUNICODE_STRING made = kz_refuses(KZ_CHOICE_POOL, __func__) ? NULL : kz_take_memory(KZK_POOL, sizeof *made + length, 0, 'nKmC');
    *ObjectName = made;
    if (!made)
        return STATUS_INSUFFICIENT_RESOURCES;
    length = kz_widen((PWSTR)(made + 1), name);
    *made = (UNICODE_STRING){(USHORT)length, (USHORT)length, (PWSTR)(made + 1)};
    return STATUS_SUCCESS;
}

VOID CmCallbackReleaseKeyObjectIDEx(PCUNICODE_STRING ObjectName)
{
    KZ_INSIDE_ALONE();
    kz_uses_object(ObjectName, KZU_WRITES);
    const KzPiece *piece = kz_piece_of(ObjectName);
    if (piece && piece->kind == KZK_POOL && piece->tag == 'nKmC')
        kz_give_back((PVOID)ObjectName);
    else
        kz_tell(KZM_NO_NAME, __func__, "no name that CmCallbackGetKeyObjectIDEx gave (released twice?)");
}

/* Its name is the key's, as long as that is open. */
NTSTATUS CmCallbackGetKeyObjectID(PLARGE_INTEGER Cookie, PVOID Object, PULONG_PTR ObjectID, PCUNICODE_STRING *ObjectName)
{
    KZ_INSIDE_ALONE();
    kz_uses_object(Object, KZU_WRITES);
    kz_gives(ObjectID);
    kz_gives(ObjectName);
    (void)Cookie;
    KzKey *key = Object;
    if (!kz_key_name(Object) || (!key->said.Buffer && !kz_give_name(&key->said, key->name, false)))
        return STATUS_INVALID_PARAMETER;
    if (ObjectID)
        *ObjectID = number_of(key->name);
    if (ObjectName)
        *ObjectName = &key->said;
    return STATUS_SUCCESS;
}
