/* The registry: the values of a file that the test names. `[ctx]` begins the key of the driver ctx below Services, `[ctx\Parameters]` one below it; a line is
 * NAME = 5, 0x10, "text", hex:0102 or multi:"a" "b". Without a file each driver's own key is there, and has no values. */
#include "kit/registry.h"

#include "core/client.h"
#include "core/clock.h"
#include "core/memory.h"
#include "core/module.h"
#include "core/piece.h"
#include "core/place.h"
#include "core/told.h"
#include "lib/letters.h"
#include "kit/key.h"

#include <ctype.h>
#include <stdlib.h>

struct KzRegistryState {
    KzValue *values;
    KzKey *keys;
    bool has_drivers; /* their keys are there */
};

/* ---- What is there. */
static const char *const always[] = {"/REGISTRY/MACHINE/HARDWARE",
                                     "/REGISTRY/MACHINE/SOFTWARE/Microsoft/Windows NT/CurrentVersion",
                                     "/REGISTRY/MACHINE/SOFTWARE/Microsoft/Windows/CurrentVersion",
                                     "/REGISTRY/MACHINE/SOFTWARE/Policies",
                                     "/REGISTRY/MACHINE/SYSTEM/ControlSet001/Control",
                                     KZ_SERVICES,
                                     "/REGISTRY/USER/.DEFAULT"};

KzValue *kz_first_value(void)
{
    if (!kz.registry->has_drivers) {
        kz.registry->has_drivers = true;
        for (size_t at = 0; at < sizeof always / sizeof always[0]; at++)
            kz_add_key(always[at]);
        for (size_t at = 0; at < kz.drivers_count; at++) {
            char name[KZ_KEY_NAME];
            snprintf(name, sizeof name, "%s/%.200s", KZ_SERVICES, kz.drivers[at].name);
            kz_add_key(name);
        }
    }
    return kz.registry->values;
}

const char *kz_name_below(const char *key, const char *name)
{
    size_t length = strlen(key);
    if (kz_compare_texts(key, name, length) != 0 || (name[length] && name[length] != '/'))
        return NULL;
    return name + length + (name[length] == '/');
}

KzValue *kz_key_itself(const char *name)
{
    KzValue *one = kz_first_value();
    while (one && (one->name || kz_compare_texts(one->key, name, KZ_KEY_NAME) != 0))
        one = one->next;
    return one;
}

static char *copied(const char *text)
{
    return strcpy(kz_memory(strlen(text) + 1), text);
}

/* At the end: values are enumerated as they came. */
static KzValue *append(const char *key, const char *name, ULONG type, const void *data, size_t length)
{
    KzValue **at = &kz.registry->values, *made = kz_memory(sizeof *made);
    while (*at)
        at = &(*at)->next;
    *made = (KzValue){NULL, copied(key), name ? copied(name) : NULL, type, (ULONG)length, kz_memory(length), kz_time()};
    if (length)
        memcpy(made->data, data, length);
    return *at = made;
}

/* What is there of it already is spelt as it is. */
KzValue *kz_add_key(const char *key)
{
    char name[KZ_KEY_NAME];
    snprintf(name, sizeof name, "%s", key);
    for (char *end = strchr(name + 1, '/');; end = strchr(end + 1, '/')) {
        if (end)
            *end = 0;
        KzValue *one = kz_key_itself(name);
        if (!one)
            one = append(name, NULL, REG_NONE, NULL, 0);
        memcpy(name, one->key, strlen(one->key));
        if (!end)
            return one;
        *end = '/';
    }
}

KzValue **kz_find_value(const char *key, const char *name)
{
    kz_first_value();
    KzValue **at = &kz.registry->values;
    while (*at && (!(*at)->name || kz_compare_texts((*at)->key, key, KZ_KEY_NAME) != 0 || kz_compare_texts((*at)->name, name, KZ_KEY_NAME) != 0))
        at = &(*at)->next;
    return at;
}

void kz_put_value(const char *key, const char *name, ULONG type, const void *data, size_t length)
{
    KzValue *itself = kz_add_key(key), *value = *kz_find_value(key, name);
    itself->written = kz_time();
    if (!value) {
        append(itself->key, name, type, data, length);
        return;
    }
    free(value->data);
    value->data = kz_memory(length);
    value->length = (ULONG)length;
    value->type = type;
    if (length)
        memcpy(value->data, data, length);
}

void kz_drop_value(KzValue **at)
{
    KzValue *gone = *at;
    if (!gone)
        return;
    *at = gone->next;
    free(gone->key);
    free(gone->name);
    free(gone->data);
    free(gone);
}

void kz_drop_key(const char *name)
{
    for (KzValue **at = &kz.registry->values; *at;)
        if (kz_compare_texts((*at)->key, name, KZ_KEY_NAME) == 0)
            kz_drop_value(at);
        else
            at = &(*at)->next;
}

void kz_rename_key(const char *key, const char *name)
{
    char made[KZ_KEY_NAME], old[KZ_KEY_NAME];
    snprintf(old, sizeof old, "%s", key);
    for (KzValue *one = kz_first_value(); one; one = one->next) {
        const char *rest = kz_name_below(old, one->key);
        if (!rest)
            continue;
        snprintf(made, sizeof made, "%.200s%s%.190s", name, *rest ? "/" : "", rest);
        free(one->key);
        one->key = copied(made);
    }
    for (KzKey *one = kz.registry->keys; one; one = one->next) {
        const char *rest = kz_name_below(old, one->name);
        if (!rest)
            continue;
        snprintf(made, sizeof made, "%.200s%s%.190s", name, *rest ? "/" : "", rest);
        memcpy(one->name, made, sizeof made);
    }
}

/* ---- Handles. */
KzKey *kz_open_keys(void)
{
    return kz.registry->keys;
}

KzKey *kz_is_key(PVOID object)
{
    KzKey *one = kz.registry->keys;
    while (one && one != object)
        one = one->next;
    return one;
}

KzKey *kz_open_key_of(HANDLE handle, const char *call)
{
    KzKey *one = kz_is_key(handle);
    if (!one)
        kz_tell(KZM_NO_HANDLE, call, "a handle that isn't open (closed twice?)");
    return one;
}

const char *kz_key_name(PVOID object)
{
    const KzKey *one = kz_is_key(object);
    return one ? one->name : NULL;
}

void kz_add_open_key(KzKey *key)
{
    key->next = kz.registry->keys;
    kz.registry->keys = key;
}

void kz_take_open_key(KzKey *key)
{
    KzKey **at = &kz.registry->keys;
    while (*at != key)
        at = &(*at)->next;
    *at = key->next;
}

/* ---- The file. */
static size_t put_wide(uint8_t *room, size_t length, const char *from, size_t letters)
{
    for (size_t at = 0; at < letters; at++) {
        room[length++] = (uint8_t)from[at];
        room[length++] = 0;
    }
    room[length++] = 0;
    room[length++] = 0;
    return length;
}

static bool add_texts(const char *key, const char *name, const char *text, ULONG type)
{
    uint8_t room[2048];
    size_t length = 0;
    for (; (text = strchr(text, '"')); text++) {
        const char *end = strchr(++text, '"');
        if (!end || length + 2 * (size_t)(end - text) + 4 > sizeof room)
            return false;
        length = put_wide(room, length, text, (size_t)(end - text));
        text = end;
    }
    if (type == REG_MULTI_SZ)
        length = put_wide(room, length, "", 0);
    kz_put_value(key, name, type, room, length);
    return true;
}

static bool add_bytes(const char *key, const char *name, const char *text)
{
    uint8_t room[512];
    size_t length = 0;
    unsigned byte;
    int used;
    while (length < sizeof room && sscanf(text, " %2x%n", &byte, &used) == 1) {
        room[length++] = (uint8_t)byte;
        text += used;
    }
    kz_put_value(key, name, REG_BINARY, room, length);
    return text[strspn(text, " \t\r\n")] == 0;
}

static bool read_value(const char *key, const char *line)
{
    const char *equals = strchr(line, '=');
    if (!equals || !*key)
        return false;
    char name[256];
    size_t length = (size_t)(equals - line);
    while (length && isspace((unsigned char)line[length - 1]))
        length--;
    snprintf(name, sizeof name, "%.*s", (int)length, line);
    const char *text = equals + 1 + strspn(equals + 1, " \t");
    if (*text == '"')
        return add_texts(key, name, text, REG_SZ);
    if (strncmp(text, "multi:", 6) == 0)
        return add_texts(key, name, text + 6, REG_MULTI_SZ);
    if (strncmp(text, "hex:", 4) == 0)
        return add_bytes(key, name, text + 4);
    char *end;
    uint32_t number = (uint32_t)strtoul(text, &end, 0);
    kz_put_value(key, name, REG_DWORD, &number, sizeof number);
    return end != text && end[strspn(end, " \t\r\n")] == 0;
}

bool kz_read_registry(const char *path)
{
    char line[1024], key[KZ_KEY_NAME] = "";
    bool is_right = true;
    FILE *file = fopen(path, "r");
    if (!file)
        return false;
    while (is_right && fgets(line, sizeof line, file)) {
        const char *text = line + strspn(line, " \t\r\n");
        if (*text == '[' && strchr(text, ']')) {
            snprintf(key, sizeof key, "%s/%.*s", KZ_SERVICES, (int)(strchr(text, ']') - text - 1), text + 1);
            for (char *at = key; *at; at++)
                *at = *at == '\\' ? '/' : *at;
            kz_add_key(key);
        } else if (*text && *text != '#' && *text != ';') {
            is_right = read_value(key, text);
        }
    }
    fclose(file);
    return is_right;
}

/* ---- The end. */
static void tell_keys(void)
{
    for (KzKey *one = kz.registry->keys; one; one = one->next) {
        const char *below = kz_name_below(KZ_SERVICES, one->name);
        KzPlace before = kz_enter_again(&one->place);
        kz_tell(KZM_HANDLE_LEAK, "ZwClose", "never called for the key %s", below ? below : one->name);
        kz_me->place = before;
    }
}

static void free_registry(void)
{
    while (kz.registry->values)
        kz_drop_value(&kz.registry->values);
    while (kz.registry->keys) {
        KzKey *one = kz.registry->keys;
        kz.registry->keys = one->next;
        while (one->contexts) {
            KzKeyContext *context = one->contexts;
            one->contexts = context->next;
            free(context);
        }
        kz_give_back(one->said.Buffer);
        free(one);
    }
}

const KzModule kz_registry_module = {KZ_STATE(registry), .free = free_registry, .left = tell_keys};
