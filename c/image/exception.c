/* Exceptions, as Windows hands them out for x64: a first pass asks the handlers of the frames from the innermost one on, a second one runs what is to be done at the end of each frame that is
 * left. What none of the binary's frames takes comes back to who raised it. */
#include "image/calls.h"
#include "image/machine.h"
#include "core/told.h"
#include "core/client.h"

#include <stdlib.h>

enum { CONTINUE_EXECUTION, CONTINUE_SEARCH };
enum { NONCONTINUABLE = 1, UNWINDING = 2, TARGET_UNWIND = 0x20 };
enum { MOST_FRAMES = 256 };

/* DISPATCHER_CONTEXT. */
typedef struct {
    uint64_t pc, image;
    const KzFunction *function;
    uint64_t frame, target;
    KzContext *context;
    uint64_t handler;
    const void *data;
    void *history;
    uint32_t scope, fill;
} Dispatcher;
typedef int32_t KZ_MS_ABI Handler(KzException *exception, uint64_t frame, KzContext *context, Dispatcher *dispatcher);

/* ---- A walk over frames. One may come to the dispatcher's own frames, since a block that the dispatcher called raised something. Where that is a filter, it goes on where its exception was
 * raised: all frames are asked anew. Where that is a termination block, it goes on at the frame of that block, with those blocks that weren't run yet (a collided unwind). */
typedef struct Walk {
    struct Walk *outer;
    const KzClient *client;
    const KzContext *origin;
    bool is_unwinding;
    KzContext before, context; /* in the frame that was stepped out of last, and behind it */
    KzFrame frame;
    Dispatcher dispatcher;
    uint32_t scope; /* the first block of the frame that is to be looked at */
} Walk;

static _Thread_local Walk *walks; /* handlers of whose frames run: the innermost one first */
extern const uint8_t __start_kz_funclets[], __stop_kz_funclets[];
#define FUNCLETS __attribute__((noinline, section("kz_funclets")))

static bool is_in_dispatcher(uint64_t address)
{
    return address - (uintptr_t)__start_kz_funclets < (uintptr_t)(__stop_kz_funclets - __start_kz_funclets);
}

/* Walks of this client that lie above the stack's pointer: those below it are gone. */
static Walk *living(Walk *from, uint64_t stack)
{
    while (from && (from->client != kz_me || (uintptr_t)from < stack))
        from = from->outer;
    return from;
}

static void begin(Walk *walk, const KzContext *origin, bool is_unwinding)
{
    *walk = (Walk){.client = kz_me, .origin = origin, .is_unwinding = is_unwinding, .context = *origin};
}

static bool step(Walk *walk)
{
    uint32_t scope = 0;
    walk->before = walk->context;
    if (is_in_dispatcher(walk->context.rip)) {
        const Walk *outer = living(walks, walk->context.integers[KZ_RSP]);
        if (!outer)
            return false;
        walk->before = outer->is_unwinding ? outer->before : *outer->origin;
        scope = outer->is_unwinding ? outer->dispatcher.scope : 0;
    }
    walk->context = walk->before;
    walk->scope = scope;
    return kz_step_out(&walk->context, &walk->frame);
}

/* The handler is code of the binary, or __C_specific_handler. */
FUNCLETS static int32_t ask(Walk *walk, KzException *exception, KzContext *context, uint64_t target)
{
    const KzFrame *frame = &walk->frame;
    walk->dispatcher = (Dispatcher){.pc = walk->before.rip, .image = (uintptr_t)frame->image->bytes.start, .function = frame->function, .frame = frame->frame, .target = target,
                                    .context = context, .handler = frame->handler, .data = frame->data, .scope = walk->scope};
    walk->outer = walks;
    walks = walk;
    int32_t said = ((Handler *)(uintptr_t)frame->handler)(exception, frame->frame, context, &walk->dispatcher);
    walks = walk->outer;
    return said;
}

/* ---- The second pass, down to the frame that takes it, which goes on at the target. It comes back only if there is no such frame. */
static void unwind(uint64_t frame, uint64_t target, KzException *exception, uint64_t answer, const KzContext *origin)
{
    Walk walk;
    begin(&walk, origin, true);
    exception->flags |= UNWINDING;
    for (unsigned count = 0; count < MOST_FRAMES && step(&walk); count++) {
        bool is_target = walk.frame.frame == frame;
        exception->flags = is_target ? exception->flags | TARGET_UNWIND : exception->flags & ~(uint32_t)TARGET_UNWIND;
        if (walk.frame.is_termination)
            ask(&walk, exception, &walk.before, target);
        if (!is_target)
            continue;
        walks = living(walks, walk.before.integers[KZ_RSP]);
        walk.before.rip = target;
        walk.before.integers[KZ_RAX] = answer;
        kz_restore(&walk.before);
    }
}

/* ---- The first pass. */
void kz_raise(KzException *exception, KzContext *origin)
{
    Walk walk;
    begin(&walk, origin, false);
    for (unsigned count = 0; count < MOST_FRAMES && step(&walk); count++)
        if (walk.frame.is_exception && ask(&walk, exception, origin, 0) == CONTINUE_EXECUTION && !(exception->flags & NONCONTINUABLE))
            kz_restore(origin);
}

/* ---- __try, __except and __finally: a table of the function's blocks, the innermost ones first. A block with a target is an __except, whose filter may be 1, for all. */
typedef struct {
    uint32_t begin, end, handler, target;
} Block;
typedef struct {
    KzException *exception;
    KzContext *context;
} Pointers;
typedef int32_t KZ_MS_ABI Filter(Pointers *pointers, uint64_t frame);
typedef void KZ_MS_ABI Termination(bool is_abnormal, uint64_t frame);
enum { TAKES_ALL = 1 };

FUNCLETS static int32_t ask_filter(const Block *block, KzException *exception, KzContext *context, const Dispatcher *dispatcher)
{
    Pointers pointers = {exception, context};
    int32_t said = block->handler == TAKES_ALL ? 1 : ((Filter *)(uintptr_t)(dispatcher->image + block->handler))(&pointers, dispatcher->frame);
    if (said > 0)
        unwind(dispatcher->frame, dispatcher->image + block->target, exception, exception->code, context);
    return said;
}

FUNCLETS static void terminate(const Block *block, const Dispatcher *dispatcher)
{
    ((Termination *)(uintptr_t)(dispatcher->image + block->handler))(true, dispatcher->frame);
}

/* Whether the unwinding ends inside the block, or in the code that handles it: then it isn't left. */
static bool is_kept(const Block *block, const KzException *exception, const Dispatcher *dispatcher)
{
    uint64_t target = dispatcher->target - dispatcher->image;
    return exception->flags & TARGET_UNWIND && ((target >= block->begin && target < block->end) || (block->target && target == block->target));
}

KZ_MS_ABI int32_t kz_c_specific_handler(KzException *exception, uint64_t frame, KzContext *context, Dispatcher *dispatcher);
FUNCLETS KZ_MS_ABI int32_t kz_c_specific_handler(KzException *exception, uint64_t frame, KzContext *context, Dispatcher *dispatcher)
{
    const KzImage *image = kz_image_at(dispatcher->pc);
    uint64_t table = image ? (uintptr_t)dispatcher->data - dispatcher->image : 0, at = dispatcher->pc - dispatcher->image;
    uint32_t count = 0;
    Block block;
    (void)frame;
    if (!image || !kz_copy(image->bytes, table, &count, sizeof count))
        return CONTINUE_SEARCH;
    while (dispatcher->scope < count && kz_copy(image->bytes, table + sizeof count + dispatcher->scope * sizeof block, &block, sizeof block)) {
        dispatcher->scope++;
        if (at < block.begin || at >= block.end)
            continue;
        if (exception->flags & UNWINDING && is_kept(&block, exception, dispatcher))
            break;
        if (exception->flags & UNWINDING && !block.target)
            terminate(&block, dispatcher);
        if (!(exception->flags & UNWINDING) && block.target && ask_filter(&block, exception, context, dispatcher) < 0)
            return CONTINUE_EXECUTION;
    }
    return CONTINUE_SEARCH;
}

/* ---- The kit's calls that raise: raise.S has the registers of who called. */
#define ACCESS_VIOLATION 0xc0000005u
#define MISALIGNED 0x80000002u
#define STATUS_OF_UNWIND 0xc0000027u

void kz_raise_status(KzContext *context, int kind);
void kz_raise_status(KzContext *context, int kind)
{
    const uint32_t codes[] = {(uint32_t)context->integers[KZ_RCX], ACCESS_VIOLATION, MISALIGNED};
    KzException one = {.code = codes[kind], .flags = NONCONTINUABLE, .address = context->rip};
    kz_raise(&one, context);
    KZ_INSIDE_FROM("ExRaiseStatus", (const void *)(uintptr_t)context->rip);
    kz_tell(KZM_BUG_CHECK, "ExRaiseStatus", "exception 0x%08x, which nobody takes", one.code);
    abort();
}

/* As in the kit: that memory of the user's lies where it may and as it is to, and no more. */
void kz_probe(KzContext *context, int is_write);
void kz_probe(KzContext *context, int is_write)
{
    uint64_t address = context->integers[KZ_RCX], length = context->integers[KZ_RDX], alignment = (uint32_t)context->integers[8];
    (void)is_write;
    if (!length)
        return;
    if (alignment > 1 && address & (alignment - 1))
        kz_raise_status(context, 2);
    if (address + length < address || address + length > MmUserProbeAddress)
        kz_raise_status(context, 1);
}

/* A `return` or a `goto` out of a __try, by Microsoft's compiler: what is to be done at its end is, and the function goes on at the target. */
void kz_unwind_locally(KzContext *context, int unused);
void kz_unwind_locally(KzContext *context, int unused)
{
    KzException one = {.code = STATUS_OF_UNWIND, .address = context->rip};
    (void)unused;
    unwind(context->integers[KZ_RCX], context->integers[KZ_RDX], &one, 0, context);
    abort();
}

void kz_capture(KzContext *context, int unused);
void kz_capture(KzContext *context, int unused)
{
    (void)unused;
    memcpy((void *)(uintptr_t)context->integers[KZ_RCX], context, sizeof *context);
}
