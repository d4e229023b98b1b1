/* Who called the function of a binary's that calls the kit, or that a fault stopped: the frames around it, by the tables that its compiler left for them. */
#define _GNU_SOURCE
#include "image/calls.h"
#include "image/machine.h"
#include "core/client.h"

#include <ucontext.h>

enum { BETWEEN = 6, FURTHEST = 1 << 16 };

/* As functions of the host and stubs have it. */
typedef struct Frame {
    const struct Frame *caller;
    const void *returns;
} Frame;

_Thread_local const KzContext *kz_faulted;

static void note(const KzContext *context)
{
    const void **callers = kz_me->place.callers;
    KzContext outer = *context;
    KzFrame frame;
    callers[0] = callers[1] = NULL;
    for (unsigned at = 0; at < 2 && kz_step_out(&outer, &frame) && kz_image_at(outer.rip); at++)
        callers[at] = (const void *)(uintptr_t)outer.rip;
}

/* Of the driver's registers those alone are known that its stub keeps in a frame. A stub without one is passed by, and what lies behind it is no frame: nobody is noted. */
static void note_callers(const void *frame, const void *from)
{
    const Frame *at = frame;
    KzContext context;
    if (kz_faulted && (uintptr_t)from - kz_faulted->rip <= 1) {
        note(kz_faulted);
        return;
    }
    for (unsigned between = 0; at->returns != from; at = at->caller)
        if (++between == BETWEEN || (uintptr_t)at->caller - (uintptr_t)at >= FURTHEST || (uintptr_t)at->caller % sizeof(void *) != 0)
            return;
    memset(context.integers, 0, sizeof context.integers);
    context.rip = (uintptr_t)from;
    context.integers[KZ_RSP] = (uintptr_t)(at + 1);
    context.integers[KZ_RBP] = (uintptr_t)at->caller;
    note(&context);
}

/* Where a signal came: in code of a binary, or in a copy on its behalf, whose caller is on top of the stack. */
static void note_callers_at(const void *there)
{
    const greg_t *registers = ((const ucontext_t *)there)->uc_mcontext.gregs;
    KzContext context;
    for (unsigned one = 0; one < 16; one++)
        context.integers[one] = (uint64_t)registers[kz_registers[one]];
    context.rip = (uint64_t)registers[REG_RIP];
    if (context.rip - (uintptr_t)kz_copies < (uintptr_t)(kz_copies_end - kz_copies)) {
        memcpy(&context.rip, (const void *)(uintptr_t)context.integers[KZ_RSP], sizeof context.rip);
        context.integers[KZ_RSP] += sizeof context.rip;
    }
    note(&context);
}

void kz_watch_callers(void)
{
    kz_binaries.note_callers = note_callers;
    kz_binaries.note_callers_at = note_callers_at;
}
