/* Frames of the stack: which of the drivers' functions called which. The host and the drivers are compiled with frame pointers; what is between them isn't, and no frame beyond a driver's is
 * looked at. */
#include "core/frame.h"

/* c/build.sh has objcopy give the drivers' code this name; c/adapt puts what can be paged out into the other one. */
extern char __start_kz_text[] __attribute__((weak)), __stop_kz_text[] __attribute__((weak));
extern char __start_PAGE[] __attribute__((weak)), __stop_PAGE[] __attribute__((weak));

enum { BETWEEN = 6, STACK = 1 << 15, WORDS = 64 };

typedef struct Frame {
    const struct Frame *caller;
    const void *returns;
} Frame;

static bool lies_between(const void *address, const char *start, const char *stop)
{
    return (uintptr_t)address - (uintptr_t)start < (uintptr_t)stop - (uintptr_t)start;
}

bool kz_is_drivers_code(const void *address)
{
    return lies_between(address, __start_kz_text, __stop_kz_text) || lies_between(address, __start_PAGE, __stop_PAGE);
}

static void note(const void *callers[2], const Frame *frame)
{
    callers[0] = kz_is_drivers_code(frame->returns) ? frame->returns : NULL;
    callers[1] = callers[0] && kz_is_drivers_code(frame->caller->returns) ? frame->caller->returns : NULL;
}

/* The frame whose function was called, by others in between, from there; NULL if that isn't a driver's code. */
static const Frame *frame_from(const Frame *at, const void *from)
{
    if (!kz_is_drivers_code(from))
        return NULL;
    for (unsigned between = 0; at->returns != from; at = at->caller)
        if (++between == BETWEEN)
            return NULL;
    return at;
}

void kz_note_callers(const void *callers[2], const void *frame, const void *from)
{
    const Frame *at = frame_from(frame, from);
    callers[0] = callers[1] = NULL;
    if (at)
        note(callers, at->caller);
}

const void **kz_return_to(const void *frame, const void *from)
{
    const Frame *at = frame_from(frame, from);
    return at ? (const void **)(uintptr_t)&at->returns : NULL;
}

void kz_note_callers_of(const void *callers[2], const void *frame, const void *stack)
{
    callers[0] = callers[1] = NULL;
    if ((uintptr_t)frame - (uintptr_t)stack < STACK && (uintptr_t)frame % sizeof(void *) == 0)
        note(callers, frame);
}

const void *kz_drivers_call(const void *stack)
{
    const void *const *word = stack;
    for (unsigned at = 0; at < WORDS; at++)
        if (kz_is_drivers_code(word[at]))
            return word[at];
    return NULL;
}
