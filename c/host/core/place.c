/* Where something happens: the callback that runs, and what is looked at as it returns. */
#include "core/place.h"

#include "core/client.h"
#include "core/held.h"
#include "core/major.h"
#include "core/module.h"
#include "core/op.h"
#include "core/piece.h"
#include "core/source.h"
#include "core/spell.h"

#include <stdarg.h>

const char kz_a_request[] = "a request";

static const char *const callbacks[] = {"no callback",  "DriverEntry",    "setup",             "preoperation", "postoperation", "drain", "query",
                                        "teardown start", "teardown complete", "unload",       "context cleanup", "work item", "timer",
                                        "thread",       "port",  "cancel",       "notify routine", "completion", "dispatch", "name provider"};

/* Two filters may call one another: so two are kept. */
static void nest(KzPlace *place, const KzPlace *before)
{
    unsigned at = 0;
    while (at < 2 && (before->nested[at].filter != place->filter || before->nested[at].major != place->major))
        at++;
    place->nested[0].filter = place->filter;
    place->nested[0].major = place->major;
    place->nested[0].count = at < 2 ? before->nested[at].count + 1 : 1;
    place->nested[1] = before->nested[at == 0];
}

unsigned kz_nested(void)
{
    return kz_me->place.nested[0].count;
}

KzPlace kz_enter(KzCallback callback, uint8_t worker, PFLT_FILTER filter, PFLT_INSTANCE instance, KzOp *op, PFLT_CALLBACK_DATA data)
{
    KzPlace before = kz_me->place;
    kz_entered(callback, filter);
    kz_me->place = (KzPlace){.callback = callback,
                             .filter = filter,
                             .instance = instance,
                             .op = op,
                             .op_id = op ? op->id : 0,
                             .major = op ? kz_major_of(op) : 0,
                             .data = data,
                             .number = ++kz_me->places,
                             .depth = before.depth + 1,
                             .worker = worker,
                             .process = kz_me->process,
                             .top_level = kz_me->top_level,
                             .irql = before.irql,
                             .raised = before.raised,
                             .locks_from = before.locks_from,
                             .request = op ? op->request : kz_me->request,
                             .line = op ? op->line : kz_me->line_number,
                             .path = op ? op->path : NULL};
    if (op && filter)
        nest(&kz_me->place, &before);
    if (filter)
        kz_scheduler->touch(&filter->is_started, 0, KZT_TAKES);
    if (instance)
        kz_scheduler->touch(&instance->id, 0, KZT_TAKES);
    return before;
}

void kz_call_at(KIRQL irql)
{
    kz_me->place.irql = kz_me->place.raised = irql;
    kz_me->place.locks_from = kz_me->place.number;
}

/* Back to where something began that is told only now. Its operation may be gone: its number is there. */
KzPlace kz_enter_again(const KzPlace *place)
{
    KzPlace before = kz_me->place;
    kz_me->place = *place;
    return before;
}

/* A callback returns: what it left is looked at. */
void kz_leave(KzPlace before)
{
    kz_tell_locks();
    kz_check_memory(kz_me->place.filter);
    if (kz_me->place.op)
        kz_check_blocks(kz_me->place.op);
    kz_me->place = before;
}

__attribute__((format(printf, 4, 5))) static void add(char *room, size_t size, size_t *used, const char *format, ...)
{
    va_list arguments;
    va_start(arguments, format);
    int put = vsnprintf(room + *used, size - *used, format, arguments);
    va_end(arguments);
    *used += (size_t)put < size - *used ? (size_t)put : size - *used - 1;
}

size_t kz_place_text(char *room, size_t size)
{
    const KzPlace *place = &kz_me->place;
    size_t used = 0;
    add(room, size, &used, "filter %s", place->filter ? place->filter->driver->name : "none");
    if (place->instance)
        add(room, size, &used, ", instance %u", place->instance->id);
    add(room, size, &used, ", %s", callbacks[place->callback]);
    if (place->op)
        add(room, size, &used, ", " KZ_OPERATION ", %s", (unsigned long long)place->op_id, FltGetIrpName(place->major));
    return used;
}

/* Where the code there was put into another function, and where that was called. */
static void add_callers(char *room, size_t size, size_t *used, const KzPlace *place)
{
    add(room, size, used, KZ_FROM "%lx", (unsigned long)kz_in_file(place->from));
    for (unsigned at = 0; at < 2 && place->callers[0] && place->callers[at]; at++)
        add(room, size, used, KZ_FROM "%lx", (unsigned long)kz_in_file(place->callers[at]));
}

size_t kz_source_text(char *room, size_t size, const char *call)
{
    const KzPlace *place = &kz_me->place;
    size_t used = 0;
    char path[400];
    room[0] = 0;
    kz_spell(path, sizeof path, place->path ? place->path : "");
    if (place->from && !place->filter && place->call == kz_a_request)
        ; /* the host's own line says nothing */
    else if (place->from && strcmp(place->call, call) != 0)
        add(room, size, &used, ", at @%lx by %s", (unsigned long)kz_in_file(place->from), place->call);
    else if (place->from)
        add(room, size, &used, ", at @%lx", (unsigned long)kz_in_file(place->from));
    else if (place->function)
        add(room, size, &used, ", in @%lx", (unsigned long)kz_in_file(place->function) + 1);
    if (place->from && place->filter)
        add_callers(room, size, &used, place);
    if (place->path)
        add(room, size, &used, KZ_MARK ", \\%s" KZ_MARK, path);
    if (place->request && place->line)
        add(room, size, &used, KZ_MARK ", line %u: %s" KZ_MARK, place->line, place->request);
    else if (place->request)
        add(room, size, &used, KZ_MARK ", %s" KZ_MARK, place->request);
    return used;
}
