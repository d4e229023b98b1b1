/* What is told: a line with a number that stays, the kit's call, filter, instance, callback and operation. TOLD is a mistake on Windows too; LIMIT is where Kazdrin
 * differs, and is told once for each filter and call. */
#include "core/told.h"

#include "core/client.h"
#include "core/memory.h"
#include "core/module.h"
#include "core/place.h"

#include <stdarg.h>
#include <stdlib.h>

static struct {
    bool is_allowed[KZM_MESSAGES];
    bool is_strict;
} asked;

/* What was told, and where: it is told again as a count alone. Of a limit the filter and the call are all. */
typedef struct Place {
    struct Place *next;
    KzMessage message;
    bool is_limit;
    KzPlace at;
    char call[48];
    uint64_t again;
} Place;

struct KzToldState {
    Place *first, **end;
};

bool kz_allow(const char *id)
{
    char *end;
    unsigned long number = strncmp(id, "KZ", 2) == 0 ? strtoul(id + 2, &end, 10) : 0;
    if (!number || *end || number >= KZM_MESSAGES)
        return false;
    asked.is_allowed[number] = true;
    return true;
}

void kz_be_strict(bool is)
{
    asked.is_strict = is;
}

/* ---- Telling. */
static bool is_same(const Place *one, KzMessage message, bool is_limit, const char *call)
{
    const KzPlace *now = &kz_me->place;
    if (one->message != message || one->at.filter != now->filter || strcmp(one->call, call) != 0)
        return false;
    return is_limit || (one->at.callback == now->callback && one->at.from == now->from && one->at.function == now->function);
}

/* Whether it was told of this place; it is from now on. */
static bool was_told(KzMessage message, bool is_limit, const char *call)
{
    for (Place *one = kz.told->first; one; one = one->next)
        if (is_same(one, message, is_limit, call)) {
            one->again++;
            return true;
        }
    Place *made = kz_memory(sizeof *made);
    *made = (Place){.message = message, .is_limit = is_limit, .at = kz_me->place};
    snprintf(made->call, sizeof made->call, "%s", call);
    *(kz.told->end ? kz.told->end : &kz.told->first) = made;
    kz.told->end = &made->next;
    return false;
}

static void put_line(KzSaid said, const char *call, const char *text)
{
    char line[1800], place[256], source[420];
    kz_place_text(place, sizeof place);
    kz_source_text(source, sizeof source, call);
    snprintf(line, sizeof line, "%s KZ%04d %s: %.900s: %s%s\n", said.kind == KZ_SAID_LIMIT ? "LIMIT" : "TOLD", said.message, call, text, place, source);
    said.text = line;
    if (kz_observe(&said, said.kind == KZ_SAID_TOLD || asked.is_strict))
        kz_scheduler->said(&said);
}

/* A mistake that was told of the same place counts, and is no line of its own. */
static void tell(const void *object, KzMessage message, const char *call, const char *format, va_list arguments)
{
    char text[1000];
    PFLT_FILTER filter = kz_me->place.filter;
    bool is_limit = KZ_IS_LIMIT(message);
    kz_uses_all(); /* who tells it first has it */
    if (asked.is_allowed[message] || (!is_limit && filter && filter->gave_up)) /* on Windows it never comes there */
        return;
    bool is_again = was_told(message, is_limit, call);
    if (is_limit && is_again)
        return;
    if (filter && message == KZM_NOBODY_SETS)
        filter->gave_up = true;
    if (is_limit)
        kz.counts.limits++;
    if (!is_limit || asked.is_strict)
        kz.counts.told++;
    KzSaid said = {is_limit ? KZ_SAID_LIMIT : KZ_SAID_TOLD, message, &kz_me->place, object, NULL};
    if (is_again) {
        kz_observe(&said, true);
    } else if (!is_limit || !kz_is_quiet || asked.is_strict) {
        vsnprintf(text, sizeof text, format, arguments);
        put_line(said, call, text);
    }
}

/* How often what was told once came up again. */
void kz_tell_again(void)
{
    for (Place *one = kz.told->first; one; one = one->next) {
        if (!one->again || one->is_limit)
            continue;
        char text[64];
        snprintf(text, sizeof text, "told %llu more %s", (unsigned long long)one->again, one->again == 1 ? "time" : "times");
        KzPlace before = kz_enter_again(&one->at);
        put_line((KzSaid){KZ_SAID_AGAIN, one->message, &kz_me->place, NULL, NULL}, one->call, text);
        kz_me->place = before;
    }
}

void kz_tell_of(const void *object, KzMessage message, const char *call, const char *format, ...)
{
    KZ_INSIDE_UNSAID();
    va_list arguments;
    va_start(arguments, format);
    tell(object, message, call, format, arguments);
    va_end(arguments);
}

void kz_tell(KzMessage message, const char *call, const char *format, ...)
{
    KZ_INSIDE_UNSAID();
    va_list arguments;
    va_start(arguments, format);
    tell(NULL, message, call, format, arguments);
    va_end(arguments);
}

/* A refusal that a filter brings about by a call past a bound of the manager. Others are answers that it deals with. */
void kz_tell_refused(const char *call, uint32_t status)
{
    if (status == KZS_HAND_FULL)
        kz_tell(KZM_HAND_IS_FULL, call, "more references than the 16 that a callback holds at most");
    else if (status == KZS_TOO_MANY)
        kz_tell(KZM_TOO_MANY_CONTEXTS, call, "more contexts than the manager has room for");
}

static void free_told(void)
{
    while (kz.told->first) {
        Place *one = kz.told->first;
        kz.told->first = one->next;
        free(one);
    }
}

const KzModule kz_told_module = {KZ_STATE(told), .free = free_told};
