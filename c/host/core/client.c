/* Clients, and the calls by which they come inside the host and leave it. */
#include "core/client.h"

#include "core/access.h"
#include "core/result.h"
#include "core/beside.h"
#include "core/clock.h"
#include "core/frame.h"
#include "core/irql.h"
#include "core/late.h"
#include "core/memory.h"
#include "core/module.h"
#include "core/said.h"
#include "core/stack.h"
#include "core/unwritten.h"

#include <stdarg.h>

KzClient kz_first = {.name = "first", .process = 100, .thread = 104};
_Thread_local KzClient *kz_me = &kz_first;
const KzScheduler *kz_scheduler = &kz_in_order;

void kz_new_client(KzClient *client, const char *name, unsigned number)
{
    client->name = name;
    client->place = (KzPlace){.worker = (uint8_t)number};
    client->process = 100;
    client->thread = 104 + 4 * number;
    client->top_level = NULL;
    client->inside = 0;
    client->is_known = client->is_detaching = client->is_paging = false;
    client->number = number;
    client->is_last = false;
    client->timeout = 0;
    client->places = 0;
    client->busy = (KazdrinEvent){0};
    client->busy_number = 0;
    client->names_count = 0;
    client->says[0] = 0;
    client->waits[0] = 0;
    client->stands = NULL;
    client->owner_of = NULL;
    client->beside = NULL;
    client->request = NULL;
    client->line_number = 0;
    memset(&client->tries, 0, sizeof client->tries);
    memset(client->taken, 0, sizeof client->taken);
}

void *kz_common_memory(size_t size)
{
    KzClient *me = kz_me;
    kz_me = &kz_first;
    void *made = kz_memory(size);
    kz_me = me;
    return made;
}

unsigned kz_go_inside_unsaid(void)
{
    if (kz_me->inside > 0)
        return kz_me->inside++;
    kz_scheduler->lock();
    kz_free_stack();
    kz_me->calls++;
    kz_me->moments++;
    kz_me->inside = 1;
    kz_me->is_known = false;
    return 0;
}

void kz_uses_all(void)
{
    kz_scheduler->uses(NULL, KZU_WRITES);
}

void kz_uses_bytes(const void *bytes, size_t size, KzUse how)
{
    size_t skipped = (uintptr_t)bytes % sizeof(uint64_t);
    for (size_t at = 0; at < size + skipped && size; at += sizeof(uint64_t))
        kz_scheduler->uses((const uint8_t *)bytes - skipped + at, how);
}

void kz_uses_object(const void *object, KzUse how)
{
    if (object)
        kz_scheduler->uses(object, how);
}

void kz_uses_text(PCUNICODE_STRING text, KzUse how)
{
    if (!text)
        return;
    kz_uses_bytes(text, sizeof *text, how);
    kz_uses_bytes(text->Buffer, text->Buffer ? text->MaximumLength : 0, how);
}

/* In a call that the host makes itself it is the outer one that would have to be known. */
void kz_uses_own(void)
{
    kz_me->is_known |= kz_me->inside == 1;
}

void kz_uses_phases(void)
{
    for (size_t at = 0; at < kz.instances_count; at++)
        kz_scheduler->uses(&kz.instances[at]->torn_down_by, KZU_READS);
}

void kz_uses_little(void)
{
    kz_uses_own();
    kz_uses_phases();
}

void kz_acts_as_driver(void)
{
    kz_me->place.is_in_drivers_place |= kz_me->inside == 1;
}

static void leave_host(void)
{
    if (!kz_me->is_known)
        kz_uses_all();
}

/* A driver's own call is looked at: whether it may be made at that IRQL. */
unsigned kz_go_inside(const char *name, const void *from)
{
    unsigned depth = kz_go_inside_unsaid();
    if (depth > 0)
        return depth;
    if (from == kz_answered)
        from = kz_me->place.answered_to;
    kz_me->place.call = name;
    kz_me->place.is_in_drivers_place = false;
    kz_me->place.from = from;
    kz_note_callers(kz_me->place.callers, __builtin_frame_address(0), from);
    if (kz_is_binary(from))
        kz_binaries.note_callers(__builtin_frame_address(0), from);
    kz_watch_answer(__builtin_frame_address(0), name, from);
    kz_check_irql(name);
    return 0;
}

unsigned kz_begin_call(const char *name, const void *from)
{
    if (kz_me->inside == 0)
        kz_scheduler->point(name, from);
    return kz_go_inside(name, from);
}

/* What a driver's code may touch depends on its IRQL and its process. */
static void let_code_go_on(void)
{
    if (kz_binaries.run)
        kz_binaries.run();
    kz_shut_owned();
    kz_bound_stack();
}

void kz_end_inside(unsigned *depth)
{
    kz_me->inside = *depth;
    if (*depth > 0)
        return;
    leave_host();
    let_code_go_on();
    kz_scheduler->unlock();
    kz_fill_stack();
}

void kz_end_call(unsigned *depth)
{
    if (*depth == 0) {
        kz_look_at_time();
        kz_me->place.call = kz_me->place.from = kz_me->place.callers[0] = NULL;
    }
    kz_end_inside(depth);
}

static unsigned step_out(const char *name)
{
    unsigned depth = kz_me->inside;
    leave_host();
    kz_me->inside = 0;
    let_code_go_on();
    kz_scheduler->unlock();
    kz_scheduler->point(name, NULL);
    return depth;
}

unsigned kz_let_function(const char *name, const void *function)
{
    kz_me->place.function = function;
    kz_begin_stack(__builtin_frame_address(0));
    if (!kz_scheduler->has_pages)
        kz_look_at_code((const uint8_t *)function + 1);
    unsigned depth = step_out(name);
    kz_fill_stack();
    return depth;
}

void kz_driver_returned(unsigned depth, const char *name)
{
    kz_scheduler->point(name, NULL);
    kz_scheduler->lock();
    kz_free_stack();
    kz_me->inside = depth;
    kz_me->moments++;
    kz_me->is_known = false;
    kz_open_all_owned();
}

void kz_pause(const char *name)
{
    uint64_t moment = kz_me->moments;
    kz_driver_returned(step_out(name), NULL);
    if (!kz_scheduler->has_others)
        kz_me->moments = moment; /* nobody could go on */
}

void kz_pause_until(const char *name, KzCan *can, void *what, const char *text)
{
    if (!kz_has_others() || !kz_scheduler->is_timeless) {
        kz_pause(name);
        return;
    }
    leave_host();
    kz_me->is_known = true; /* it looks at nothing before it goes on */
    kz_me->until = kz_now();
    kz_me->stands = name;
    kz_scheduler->wait(can, what, text);
    kz_me->stands = NULL;
    kz_me->is_known = false;
}

void kz_waits_for_owner(KzOwnerOf *owner_of, const void *what, bool is_named)
{
    kz_me->owner_of = owner_of;
    kz_me->owned = what;
    kz_me->names_owner = is_named;
}

static bool end_wait(bool is_over)
{
    kz_me->owner_of = NULL;
    return is_over;
}

bool kz_wait(KzCan *can, void *what, const char *format, ...)
{
    char text[160];
    va_list arguments;
    if (can(what) || !kz_has_others())
        return end_wait(can(what));
    va_start(arguments, format);
    vsnprintf(text, sizeof text, format, arguments);
    va_end(arguments);
    kz_me->until = kz_now() + kz_me->timeout;
    return end_wait(kz_scheduler->wait(can, what, text));
}

/* Whether a call that may be refused is: then it answers as it does where there is no memory. */
bool kz_refuses(KzChoice what, const char *call)
{
    return kz_scheduler->choose(2, what, call) == 1;
}

/* Whether others run beside this client, which come to what it waits for. Beside the set-up, and at the end, none does but its threads, which have others. */
bool kz_has_others(void)
{
    return kz_me->beside || (kz_scheduler->has_others && kz_me != &kz_first);
}

bool kz_let_others(void)
{
    return !kz_has_others() && kz_goes_on();
}

static bool wait_beside(KzCan *can, void *what, int64_t milliseconds, const char *text)
{
    kz_me->timeout = milliseconds < 0 ? 0 : (uint64_t)milliseconds + 1;
    bool is_over = (kz_me->timeout && kz_scheduler->choose(2, KZ_CHOICE_TIME, "the time is over")) || !kz_wait(can, what, "%s", text);
    kz_me->timeout = 0;
    return !is_over;
}

enum { EVER = 3600 * 1000 }; /* no wait of a test is for longer */

bool kz_wait_for(KzCan *can, void *what, int64_t milliseconds, const char *text)
{
    uint64_t until = kz_now() + (milliseconds < 0 ? EVER : (uint64_t)milliseconds);
    if (can(what) || !milliseconds)
        return end_wait(can(what));
    if (kz_has_others())
        return end_wait(wait_beside(can, what, milliseconds, text));
    while (!can(what) && (kz_let_others() || kz_pass_to_next(until)))
        ;
    if (!can(what) && milliseconds > 0 && kz_now() < until)
        kz_pass(until - kz_now());
    return can(what);
}

/* ---- In order: one request after the other. */
static void pass_point(const char *name, const void *from)
{
    (void)name, (void)from;
}

/* A thread gives its turn back. Where all run at once since, it waits as they do. */
static bool wait_in_order(KzCan *can, void *what, const char *text)
{
    if (!kz_me->beside)
        return can(what);
    kz_rest(can, what);
    if (kz_scheduler == &kz_in_order)
        return can(what);
    kz_scheduler->lock();
    return kz_scheduler->wait(can, what, text);
}

static void touch_nothing(const void *object, size_t size, KzTouch how)
{
    (void)object, (void)size, (void)how;
}

static void use_nothing(const void *object, KzUse how)
{
    (void)object, (void)how;
}

static void look_at_nothing(const void *object, const void *from)
{
    (void)object, (void)from;
}

static unsigned choose_as_asked(unsigned count, KzChoice what, const char *name)
{
    (void)count, (void)name;
    return kz_fails_now(what);
}

static void nothing(void)
{
}

const KzScheduler kz_in_order = {pass_point, wait_in_order, touch_nothing, use_nothing, look_at_nothing, choose_as_asked, kz_begin_thread, kz_let_thread, nothing, nothing, kz_print, false, true, false};
