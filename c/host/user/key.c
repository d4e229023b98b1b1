/* The registry for a program: the same keys, by the same callbacks. What else a program asks of the system's services is a limit. */
#include "core/client.h"
#include "core/process.h"
#include "core/told.h"
#include "lib/letters.h"
#include "kit/handleevent.h"
#include "kit/notify.h"
#include "kit/registry.h"
#include "user/error.h"
#include "user/object.h"
#include "user/program.h"

#define LOCAL_MACHINE ((uintptr_t)(int32_t)0x80000002)

typedef struct {
    WCHAR letters[300];
    UNICODE_STRING text;
    OBJECT_ATTRIBUTES attributes;
} Name;

static bool read_name(Name *name, void *root, const WCHAR *below)
{
    char whole[300], part[200];
    UNICODE_STRING wide;
    KzObject *object = (uintptr_t)root == LOCAL_MACHINE ? NULL : kz_object(root, KZU_KEY);
    RtlInitUnicodeString(&wide, below);
    kz_narrow(part, sizeof part, &wide);
    if (!object && (uintptr_t)root != LOCAL_MACHINE)
        return false;
    snprintf(whole, sizeof whole, "%s%s%s", object ? "" : "/REGISTRY/MACHINE", object ? "" : "/", part);
    name->text = (UNICODE_STRING){(USHORT)kz_widen(name->letters, whole), 0, name->letters};
    name->text.MaximumLength = name->text.Length;
    InitializeObjectAttributes(&name->attributes, &name->text, OBJ_CASE_INSENSITIVE, object ? object->system : NULL, NULL);
    return true;
}

static uint32_t open_key(void *root, const WCHAR *below, uint32_t access, bool is_made, ULONG *disposition, void **made)
{
    Name name;
    HANDLE key = NULL;
    *made = NULL;
    if (!read_name(&name, root, below))
        return KZ_ERROR_INVALID_HANDLE;
    NTSTATUS status = is_made ? kz_make_key(&key, access, &name.attributes, disposition) : ZwOpenKey(&key, access, &name.attributes);
    if (!NT_SUCCESS(status))
        return kz_win32_of(status);
    KzObject *object = kz_new_object(KZU_KEY);
    object->system = key;
    *made = object;
    return 0;
}

uint32_t RegOpenKeyExW(void *root, const WCHAR *below, uint32_t options, uint32_t access, void **made);
uint32_t RegOpenKeyExW(void *root, const WCHAR *below, uint32_t options, uint32_t access, void **made)
{
    (void)options;
    KZ_CALL();
    return open_key(root, below, access, false, NULL, made);
}

uint32_t RegCreateKeyExW(void *root, const WCHAR *below, uint32_t reserved, WCHAR *class, uint32_t options, uint32_t access, void *security, void **made, uint32_t *disposition);
uint32_t RegCreateKeyExW(void *root, const WCHAR *below, uint32_t reserved, WCHAR *class, uint32_t options, uint32_t access, void *security, void **made, uint32_t *disposition)
{
    (void)reserved, (void)class, (void)options, (void)security;
    KZ_CALL();
    ULONG said = 0;
    uint32_t error = open_key(root, below, access, true, &said, made);
    if (disposition)
        *disposition = said;
    return error;
}

uint32_t RegSetValueExW(void *handle, const WCHAR *name, uint32_t reserved, uint32_t type, const void *data, uint32_t length);
uint32_t RegSetValueExW(void *handle, const WCHAR *name, uint32_t reserved, uint32_t type, const void *data, uint32_t length)
{
    (void)reserved;
    KZ_CALL();
    UNICODE_STRING text;
    KzObject *object = kz_object(handle, KZU_KEY);
    RtlInitUnicodeString(&text, name);
    NTSTATUS status = object ? ZwSetValueKey(object->system, &text, 0, type, (PVOID)data, length) : STATUS_INVALID_HANDLE;
    return NT_SUCCESS(status) ? 0 : kz_win32_of(status);
}

uint32_t RegQueryValueExW(void *handle, const WCHAR *name, uint32_t *reserved, uint32_t *type, void *data, uint32_t *length);
uint32_t RegQueryValueExW(void *handle, const WCHAR *name, uint32_t *reserved, uint32_t *type, void *data, uint32_t *length)
{
    (void)reserved;
    KZ_CALL();
    uint64_t room[256];
    PKEY_VALUE_PARTIAL_INFORMATION value = (PVOID)room;
    UNICODE_STRING text;
    ULONG needed;
    KzObject *object = kz_object(handle, KZU_KEY);
    RtlInitUnicodeString(&text, name);
    NTSTATUS status = object ? ZwQueryValueKey(object->system, &text, KeyValuePartialInformation, value, sizeof room, &needed) : STATUS_INVALID_HANDLE;
    if (!NT_SUCCESS(status))
        return kz_win32_of(status);
    uint32_t size = length ? *length : 0;
    if (type)
        *type = value->Type;
    if (length)
        *length = value->DataLength;
    if (data && size < value->DataLength)
        return 234; /* ERROR_MORE_DATA */
    if (data)
        memcpy(data, value->Data, value->DataLength);
    return 0;
}

uint32_t RegDeleteValueW(void *handle, const WCHAR *name);
uint32_t RegDeleteValueW(void *handle, const WCHAR *name)
{
    KZ_CALL();
    UNICODE_STRING text;
    KzObject *object = kz_object(handle, KZU_KEY);
    RtlInitUnicodeString(&text, name);
    NTSTATUS status = object ? ZwDeleteValueKey(object->system, &text) : STATUS_INVALID_HANDLE;
    return NT_SUCCESS(status) ? 0 : kz_win32_of(status);
}

uint32_t RegCloseKey(void *handle);
uint32_t RegCloseKey(void *handle)
{
    KZ_CALL();
    KzObject *object = kz_object(handle, KZU_KEY);
    if (object)
        kz_close_object(object);
    return object ? 0 : KZ_ERROR_INVALID_HANDLE;
}

/* ---- Other processes, as far as the callbacks of handles grant it. */
void *OpenProcess(uint32_t access, int inherits, uint32_t id);
void *OpenProcess(uint32_t access, int inherits, uint32_t id)
{
    (void)inherits;
    KZ_CALL();
    PEPROCESS process = kz_process(id);
    if (!id || process->is_over) {
        kz_failed(87);
        return NULL;
    }
    ACCESS_MASK granted = kz_grant_handle(process, *PsProcessType, access, false, false);
    KzObject *object = kz_new_object(KZU_PROCESS);
    object->other = id;
    object->access = granted;
    return object;
}

uint32_t GetProcessId(void *handle);
uint32_t GetProcessId(void *handle)
{
    KZ_CALL();
    KzObject *object = kz_object(handle, KZU_PROCESS);
    return object ? (uint32_t)object->other : 0;
}

/* One that is a program goes on until its next call. */
int TerminateProcess(void *handle, unsigned code);
int TerminateProcess(void *handle, unsigned code)
{
    (void)code;
    KZ_CALL();
    KzObject *object = kz_object(handle, KZU_PROCESS);
    if (!object)
        return 0;
    if (!(object->access & 1)) /* PROCESS_TERMINATE */
        return kz_failed(5);
    return kz_end_process(object->other) == KZS_OK ? 1 : kz_failed(5);
}

/* ---- Services. */
#define LIMIT(type, answer, name, ...)                                                \
    type name(__VA_ARGS__);                                                           \
    type name(__VA_ARGS__)                                                            \
    {                                                                                 \
        KZ_CALL();                                                                    \
        kz_tell(KZM_NOT_MODELLED, #name, "no service is modelled: it fails");         \
        kz_failed(120); /* ERROR_CALL_NOT_IMPLEMENTED */                              \
        return answer;                                                                \
    }
#pragma GCC diagnostic ignored "-Wunused-parameter"
LIMIT(void *, NULL, OpenSCManagerW, const WCHAR *machine, const WCHAR *database, uint32_t access)
LIMIT(void *, NULL, OpenServiceW, void *manager, const WCHAR *name, uint32_t access)
LIMIT(int, 0, StartServiceW, void *service, uint32_t count, const WCHAR **words)
LIMIT(int, 0, ControlService, void *service, uint32_t control, void *status)
LIMIT(int, 0, QueryServiceStatus, void *service, void *status)
LIMIT(int, 0, CloseServiceHandle, void *object)
LIMIT(int, 0, StartServiceCtrlDispatcherW, const void *table)
