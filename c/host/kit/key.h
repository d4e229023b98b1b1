/* What the calls of the registry share: keys with their values, and handles of keys. */
#ifndef KZ_KIT_KEY_H
#define KZ_KIT_KEY_H

#include "host.h"
#include "core/place.h"

enum { KZ_KEY_NAME = 400 };

/* A value; or a key itself, which has no name. Both are as they were spelt, a key's name is whole, and has `/`. */
typedef struct KzValue {
    struct KzValue *next;
    char *key, *name;
    ULONG type, length;
    uint8_t *data;    /* of a key its security descriptor */
    LONGLONG written; /* of a key */
} KzValue;

/* What a callback of the registry keeps beside a handle's object. */
typedef struct KzKeyContext {
    struct KzKeyContext *next;
    uint64_t number; /* the callback's */
    PVOID context;
} KzKeyContext;

/* An open one. */
typedef struct KzKey {
    struct KzKey *next;
    KzPlace place;
    char name[KZ_KEY_NAME];
    bool is_deleted;
    KzKeyContext *contexts;
    UNICODE_STRING said; /* its name, as CmCallbackGetKeyObjectID gave it */
} KzKey;

/* ---- What is there. */
KzValue *kz_first_value(void);
KzValue *kz_key_itself(const char *name);
/* With those above it, as far as they aren't there. */
KzValue *kz_add_key(const char *name);
/* NULL at its end if it isn't there. */
KzValue **kz_find_value(const char *key, const char *name);
void kz_put_value(const char *key, const char *name, ULONG type, const void *data, size_t length);
void kz_drop_value(KzValue **at);
/* A key with its values. */
void kz_drop_key(const char *name);
/* A key, its values and all below it have another name from then on. */
void kz_rename_key(const char *key, const char *name);
/* What of a name stands behind a key's: empty for that key, NULL for others. */
const char *kz_name_below(const char *key, const char *name);

/* ---- Handles. */
KzKey *kz_open_keys(void);
KzKey *kz_is_key(PVOID object);
/* NULL, which is told, if none is open by it. */
KzKey *kz_open_key_of(HANDLE handle, const char *call);
void kz_add_open_key(KzKey *key);
void kz_take_open_key(KzKey *key);
NTSTATUS kz_key_security(HANDLE handle, SECURITY_INFORMATION what, PSECURITY_DESCRIPTOR descriptor, ULONG length, PULONG needed);
NTSTATUS kz_set_key_security(HANDLE handle, SECURITY_INFORMATION what, PSECURITY_DESCRIPTOR descriptor);

#endif
