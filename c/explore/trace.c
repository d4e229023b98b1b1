/* One schedule, step by step: who goes on, where it stands, what it touches and what is said. */
#define _GNU_SOURCE
#include "explore.h"
#include "core/piece.h"
#include "core/said.h"

#include <sys/uio.h>
#include <unistd.h>

static void append(const char *text)
{
    if (ex->trace.length + strlen(text) + 1 > sizeof ex->trace.text)
        return;
    kz_unmark(ex->trace.text + ex->trace.length, sizeof ex->trace.text - ex->trace.length, text);
    ex->trace.length += strlen(ex->trace.text + ex->trace.length);
}

/* ---- Events, for the page. */
static Event *new_event(EventKind kind, unsigned client)
{
    if (!ex->trace.events)
        ex->trace.events = ex_map(EVENTS * sizeof *ex->trace.events);
    if (ex->trace.count == EVENTS)
        return NULL;
    Event *one = &ex->trace.events[ex->trace.count++];
    *one = (Event){.kind = kind, .client = client, .step = ex->run.steps};
    return one;
}

static void note(EventKind kind, const char *text)
{
    char plain[TEXT];
    Event *one = new_event(kind, kz_me == &kz_first ? 0 : kz_me->number);
    kz_unmark(plain, sizeof plain, text);
    if (one)
        one->text = ex_kept(plain);
}

/* ---- What the step touches. */
enum { TOUCHES = 24 };

/* The piece of memory that the address is in; NULL if it is in none. */
static const KzPiece *piece_with(const void *address)
{
    const uint8_t *at = (const uint8_t *)((uintptr_t)address & ~(uintptr_t)7);
    for (size_t back = 0; ex_is_heap(address) && back < 4096; back += 8) {
        const KzPiece *piece = kz_piece_of(at - back);
        if (piece)
            return (const uint8_t *)address < piece->body + piece->size ? piece : NULL;
    }
    return NULL;
}

static void describe(const void *address, char *room, size_t size)
{
    static const char *const kinds[] = {[KZK_POOL] = "a pool", [KZK_CONTEXT] = "a context", [KZK_NAME] = "a name", [KZK_BUFFER] = "a buffer", [KZK_CALLER] = "a caller's buffer", [KZK_DATA] = "callback data"};
    const KzPiece *piece = piece_with(address);
    char tag[8];
    if (ex_is_program(address))
        snprintf(room, size, EX_VARIABLE "%lx", (unsigned long)(uintptr_t)address);
    else if (!piece)
        snprintf(room, size, "memory at %p", address);
    else if (piece->tag)
        snprintf(room, size, "byte %zu of %s, tag '%s'", (size_t)((const uint8_t *)address - piece->body), kinds[piece->kind], kz_tag(piece->tag, tag));
    else
        snprintf(room, size, "byte %zu of %s", (size_t)((const uint8_t *)address - piece->body), kinds[piece->kind]);
}

/* What is there as the client sees it, which may have a write in its buffer that memory hasn't. False if it can't be read, or isn't a value. */
static bool read_value(unsigned client, const void *address, size_t size, uint64_t *value)
{
    const Buffer *buffer = &ex->run.buffers[client];
    struct iovec to = {value, size}, from = {(void *)address, size};
    *value = 0;
    for (unsigned at = buffer->count; at-- > 0 && client != kz_me->number;)
        if (buffer->writes[at].at == address && buffer->writes[at].size == size) {
            memcpy(value, &buffer->writes[at].other, size);
            return true;
        }
    return size && size <= sizeof *value && process_vm_readv(getpid(), &to, 1, &from, 1, 0) == (ssize_t)size;
}

/* A small number is one, of either sign; an address is what lies there; the rest are bits. */
static void append_value(char *text, size_t room, unsigned client, const void *address, size_t size)
{
    uint64_t value;
    char name[96];
    size_t used = strlen(text);
    if (!read_value(client, address, size, &value))
        return;
    int64_t number = (int64_t)(value << (64 - 8 * size)) >> (64 - 8 * size);
    const void *object = (const void *)(uintptr_t)value;
    if (number > -0x10000 && number < 0x10000) {
        snprintf(text + used, room - used, " = %lld", (long long)number);
    } else if (size == sizeof object && (ex_is_program(object) || piece_with(object))) {
        describe(object, name, sizeof name);
        snprintf(text + used, room - used, ex_is_program(object) ? " = &%s" : " = %s", name);
    } else {
        snprintf(text + used, room - used, " = 0x%llx", (unsigned long long)value);
    }
}

void ex_trace_access(const void *address, size_t size, bool is_write, bool is_atomic, const void *from)
{
    char name[96], text[160];
    static const char *const words[2][2] = {{"reads", "writes"}, {"reads in order", "writes in order"}};
    describe(address, name, sizeof name);
    snprintf(text, sizeof text, "%s %s", words[is_atomic][is_write], name);
    if (!is_write)
        append_value(text, sizeof text, kz_me->number, address, size);
    for (size_t at = ex->trace.touches_from; at < ex->trace.count; at++)
        if (ex->trace.events[at].kind == EVENT_TOUCH && strcmp(ex->trace.events[at].text, text) == 0)
            return;
    Event *one = new_event(EVENT_TOUCH, kz_me->number);
    if (one) {
        one->text = ex_kept(text);
        one->from = from;
        one->written = is_write ? address : NULL;
        one->size = size;
    }
}

/* What was written is there by now. */
static void settle(Event *one)
{
    char text[160];
    if (!one->written)
        return;
    snprintf(text, sizeof text, "%s", one->text);
    append_value(text, sizeof text, one->client, one->written, one->size);
    one->text = ex_kept(text);
}

/* Whether the client took the object as a lock before. */
static bool was_lock(const void *object)
{
    for (size_t at = ex->trace.count; at-- > 0;)
        if (ex->trace.events[at].object == object && ex->trace.events[at].client == kz_me->number)
            return ex->trace.events[at].is_lock;
    return false;
}

/* A lock is taken or let go, an object is waited for or set. */
void ex_trace_object(const void *object, bool is_taken, const char *call)
{
    char name[96], text[160];
    describe(object, name, sizeof name);
    int before = snprintf(text, sizeof text, "%s: ", call);
    snprintf(text + before, sizeof text - (size_t)before, "%s", name);
    bool is_lock = is_taken ? KzIsHeld(object) > 0 : was_lock(object);
    Event *one = new_event(is_taken ? EVENT_TAKES : EVENT_GIVES, kz_me->number);
    if (one) {
        one->text = ex_kept(text);
        one->name = one->text + before;
        one->object = object;
        one->is_lock = is_lock;
    }
}

void ex_put_touches(void)
{
    char line[TEXT];
    size_t used = 0;
    for (size_t at = ex->trace.touches_from; at < ex->trace.count; at++)
        if (ex->trace.events[at].kind == EVENT_TOUCH && used + 200 < sizeof line) {
            settle(&ex->trace.events[at]);
            used += (size_t)snprintf(line + used, sizeof line - used, "%s%s", used ? ", " : "        ", ex->trace.events[at].text);
        }
    if (used) {
        append(line);
        append("\n");
    }
    ex->trace.touches_from = ex->trace.count;
}

/* ---- */
void ex_trace_text(const char *text)
{
    append(text);
    note(EVENT_SAID, text);
}

void ex_trace_found(const char *text)
{
    append(text);
    note(EVENT_FOUND, text);
}

void ex_trace_step(const Runner *runner, bool is_preemption)
{
    char text[TEXT];
    ex_put_touches();
    if ((int)runner->client->number != ex->run.current || !ex->trace.length) {
        snprintf(text, sizeof text, "---- %s%s\n", runner->name, is_preemption ? " (preempts)" : "");
        append(text);
    }
    snprintf(text, sizeof text, runner->from ? "  %s   %s   @%lx\n" : "  %s   %s\n", runner->name, runner->at, (unsigned long)(uintptr_t)runner->from);
    append(text);
    Event *one = new_event(EVENT_STEP, runner->client->number);
    if (one) {
        one->text = runner->at;
        one->from = runner->from;
        one->is_preemption = is_preemption;
    }
}

void ex_trace_end(void)
{
    char text[TEXT];
    ex_put_touches();
    ex_put_lines(stdout, ex->trace.text);
    for (int at = 0; at < ex->kinds.count; at++) {
        if (ex->kinds.all[at].of == END || ex->kinds.all[at].of == LIMITED)
            continue;
        kz_unmark(text, sizeof text, ex->kinds.all[at].text);
        fputs("==== ", stdout);
        ex_put_sources(stdout, text);
        putchar('\n');
    }
}
