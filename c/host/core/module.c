/* The modules above the core, one after the other, and who looks on. */
#include "core/module.h"

#include "core/memory.h"
#include "core/op.h"

#include <stdlib.h>

#define EACH(one) (const KzModule *const *one = kz.modules; one && *one; one++)

static void **state_of(const KzModule *one)
{
    return (void **)((char *)&kz + one->place);
}

/* Most look at no memory, and it is given back all the time. */
static void note_looking(void)
{
    size_t count = 0, found = 0;
    for EACH (one)
        count++;
    while (count-- > 0)
        if (kz.modules[count]->memory_goes)
            kz.looking[found++] = kz.modules[count];
    kz.looking[found] = NULL;
}

void kz_begin_modules(void)
{
    for EACH (one)
        if ((*one)->size)
            *state_of(*one) = kz_memory((*one)->size);
    note_looking();
}

void kz_end_modules(void)
{
    for EACH (one)
        if ((*one)->size)
            free(*state_of(*one));
}

/* Their states are as new once none is asked any more. */
void kz_free_modules(void)
{
    for EACH (one)
        if ((*one)->free)
            (*one)->free();
    for EACH (one)
        if ((*one)->size)
            memset(*state_of(*one), 0, (*one)->size);
}

void kz_filter_begins(PFLT_FILTER filter)
{
    for EACH (one)
        if ((*one)->filter_begins)
            (*one)->filter_begins(filter);
}

void kz_filter_unregisters(PFLT_FILTER filter)
{
    for EACH (one)
        if ((*one)->filter_unregisters)
            (*one)->filter_unregisters(filter);
}

void kz_filter_ends(PFLT_FILTER filter)
{
    for EACH (one)
        if ((*one)->filter_ends)
            (*one)->filter_ends(filter);
}

bool kz_has_any_of(PFLT_FILTER filter)
{
    return kz_has_any_but(filter, NULL);
}

bool kz_has_any_but(PFLT_FILTER filter, const KzModule *but)
{
    for EACH (one)
        if (*one != but && (*one)->has_any_of && (*one)->has_any_of(filter))
            return true;
    return false;
}

void kz_memory_goes(const void *memory, size_t size)
{
    for (const KzModule *const *one = kz.looking; *one; one++)
        (*one)->memory_goes(memory, size);
}

void kz_operation_ends(KzOp *op)
{
    for EACH (one)
        if ((*one)->operation_ends)
            (*one)->operation_ends(op);
}

bool kz_is_mapped(KzOp *op, const void *stream, uint64_t size)
{
    for EACH (one)
        if ((*one)->is_mapped && (*one)->is_mapped(op, stream, size))
            return true;
    return false;
}

void kz_object_let_go(const void *object)
{
    for EACH (one)
        if ((*one)->let_go)
            (*one)->let_go(object);
}

void kz_stream_is_cut(const void *stream, uint64_t size)
{
    for EACH (one)
        if ((*one)->cut)
            (*one)->cut(stream, size);
}

void kz_stream_is_kept(const void *stream, KzFile *by)
{
    for EACH (one)
        if ((*one)->kept)
            (*one)->kept(stream, by);
}

void kz_stream_is_replaced(const void *stream)
{
    for EACH (one)
        if ((*one)->replaced)
            (*one)->replaced(stream);
}

bool kz_goes_on(void)
{
    for EACH (one)
        if ((*one)->goes_on && (*one)->goes_on())
            return true;
    return false;
}

bool kz_passes(LONGLONG until)
{
    for EACH (one)
        if ((*one)->passes && (*one)->passes(until))
            return true;
    return false;
}

void kz_tell_left(void)
{
    for EACH (one)
        if ((*one)->left)
            (*one)->left();
}

/* ---- Who looks on. */
void kz_entered(KzCallback callback, PFLT_FILTER filter)
{
    if (kz.observer)
        kz.observer->entered(callback, filter);
}

bool kz_observe(const KzSaid *said, bool is_counted)
{
    return !kz.observer || kz.observer->told(said, is_counted);
}

void kz_replied(KzReply reply, NTSTATUS other, const uint8_t *bytes, size_t length)
{
    if (kz.observer)
        kz.observer->replied(reply, other, bytes, length);
}

bool kz_fails_now(KzChoice what)
{
    return kz.observer && kz.observer->fails(what);
}

void kz_call_answered(const char *call, NTSTATUS status)
{
    if (kz.observer && kz.observer->answered)
        kz.observer->answered(call, status);
}
