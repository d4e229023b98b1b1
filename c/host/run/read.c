/* Words of a request as numbers, bytes and things. */
#include "run/read.h"

#include "core/client.h"

#include <stdarg.h>

static __thread char refused[200];

bool kz_refuse_word(const char *format, ...)
{
    va_list arguments;
    strcpy(refused, ": ");
    va_start(arguments, format);
    vsnprintf(refused + 2, sizeof refused - 2, format, arguments);
    va_end(arguments);
    return false;
}

void kz_forget_refused_word(void)
{
    refused[0] = 0;
}

const char *kz_refused_word(void)
{
    return refused;
}

bool kz_read_number(const char *word, uint64_t limit, uint64_t *number)
{
    const char *at = word;
    *number = 0;
    for (; *at >= '0' && *at <= '9' && *number <= (UINT64_MAX - 9) / 10; at++)
        *number = *number * 10 + (uint64_t)(*at - '0');
    if (!*word || (*at && (*at < '0' || *at > '9')))
        return kz_refuse_word("`%.40s` is no number", word);
    return (!*at && *number < limit) || kz_refuse_word("%.40s is more than %llu", word, (unsigned long long)limit - 1);
}

bool kz_read_place(const char *word, uint64_t *place)
{
    bool is_end = strcmp(word, "end") == 0;
    *place = UINT64_MAX;
    return is_end || kz_read_number(word, UINT64_MAX, place);
}

static int digit(char letter)
{
    const char *digits = "0123456789abcdef", *found = letter ? strchr(digits, letter) : NULL;
    return found ? (int)(found - digits) : -1;
}

bool kz_read_hex(const char *word, uint8_t *bytes, size_t *length)
{
    const char *at = word;
    for (*length = 0; *at; at += 2) {
        int high = digit(at[0]), low = high < 0 ? -1 : digit(at[1]);
        if (low < 0)
            return kz_refuse_word("`%.40s` is no bytes, of two digits from 00 to ff each", word);
        if (*length == KZ_BYTES)
            return kz_refuse_word("there are more than %d bytes", KZ_BYTES);
        bytes[(*length)++] = (uint8_t)(high << 4 | low);
    }
    return true;
}

/* ---- Things by their numbers or their names: a filter by its driver's, a volume and an instance by their own, a handle by that which its create gave it. */
static bool numbered(const char *word, const char *kind, uint64_t limit, uint64_t *number)
{
    bool is_number = *word >= '0' && *word <= '9';
    return is_number ? kz_read_number(word, limit, number) : kz_refuse_word("no %s is named %.40s", kind, word);
}

bool kz_read_filter(const char *word, uint64_t *number)
{
    for (size_t at = kz.filters_count; at-- > 0;)
        if (strcmp(kz.filters[at]->driver->name, word) == 0) {
            *number = at;
            return true;
        }
    return numbered(word, "filter", 256, number);
}

bool kz_read_volume(const char *word, uint64_t *number)
{
    for (size_t at = kz.volumes_count; at-- > 0;)
        if (strcmp(kz.volumes[at]->name, word) == 0) {
            *number = at;
            return true;
        }
    return numbered(word, "volume", 256, number);
}

bool kz_read_instance(const char *word, uint64_t *number)
{
    for (size_t at = kz.instances_count; at-- > 0;)
        if (strcmp(kz.instances[at]->name, word) == 0) {
            *number = at;
            return true;
        }
    return numbered(word, "instance", 65536, number);
}

bool kz_read_handle(const char *word, uint64_t *number)
{
    const KzClient *clients[] = {kz_me, &kz_first};
    for (int who = 0; who < 2; who++)
        for (size_t at = clients[who]->names_count; at-- > 0;)
            if (!clients[who]->names[at].operation && strcmp(clients[who]->names[at].name, word) == 0) {
                *number = clients[who]->names[at].handle;
                return true;
            }
    return numbered(word, "handle", UINT64_MAX, number);
}

bool kz_is_name(const char *word)
{
    return !(*word >= '0' && *word <= '9') && strlen(word) < sizeof kz_me->names[0].name;
}

static void name(const char *word, uint64_t handle, uint64_t operation)
{
    size_t at = 0;
    while (at < kz_me->names_count && strcmp(kz_me->names[at].name, word) != 0)
        at++;
    if (at == sizeof kz_me->names / sizeof kz_me->names[0])
        at = 0;
    else if (at == kz_me->names_count)
        kz_me->names_count++;
    snprintf(kz_me->names[at].name, sizeof kz_me->names[at].name, "%s", word);
    kz_me->names[at].handle = handle;
    kz_me->names[at].operation = operation;
}

void kz_name_handle(const char *word, uint64_t handle)
{
    name(word, handle, 0);
}

void kz_name_later(const char *word, uint64_t operation)
{
    name(word, 0, operation + 1); /* where one request comes after the other */
}

/* Whoever ends the wait tells it: another thread may. */
void kz_name_given(uint64_t operation, uint64_t handle)
{
    for (size_t at = 0; at < kz_first.names_count; at++)
        if (kz_first.names[at].operation == operation + 1) {
            kz_first.names[at].handle = handle;
            kz_first.names[at].operation = 0;
        }
}
