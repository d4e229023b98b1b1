/* The frames of a binary's code, by the tables that its compiler left for them: .pdata has its functions, .xdata what each did at its begin. The format is that of x64 exception handling in
 * Microsoft's documentation. */
#include "image/machine.h"

enum { HAS_HANDLER = 1, HAS_TERMINATION = 2, IS_CHAINED = 4 };
enum { PUSH_NONVOL, ALLOC_LARGE, ALLOC_SMALL, SET_FPREG, SAVE_NONVOL, SAVE_NONVOL_FAR, EPILOG, SPARE_CODE, SAVE_XMM128, SAVE_XMM128_FAR, PUSH_MACHFRAME };
enum { MOST_CHAINED = 32, FURTHEST = 1 << 20 };

/* UNWIND_INFO, whose codes stand behind it. */
typedef struct {
    uint8_t version : 3, flags : 5;
    uint8_t prolog, count;
    uint8_t frame_register : 4, frame_offset : 4;
} Information;

typedef struct {
    uint8_t at, code : 4, info : 4;
    uint16_t next[2]; /* what the code takes of those behind it */
} Code;

const KzFunction *kz_function_at(const KzImage *image, uint64_t address)
{
    KzBytes table = kz_directory(&image->headers, image->bytes, KZ_EXCEPTIONS);
    const KzFunction *all = (const KzFunction *)table.start;
    uint32_t at = (uint32_t)(address - (uintptr_t)image->bytes.start);
    size_t from = 0, to = table.size / sizeof *all;
    while (from < to) {
        size_t middle = (from + to) / 2;
        if (at < all[middle].begin)
            to = middle;
        else if (at >= all[middle].end)
            from = middle + 1;
        else
            return &all[middle];
    }
    return NULL;
}

/* The stack is read as the code's own epilogue would read it. */
static uint64_t pop(uint64_t at)
{
    uint64_t value;
    memcpy(&value, (const void *)(uintptr_t)at, sizeof value);
    return value;
}

/* How many places of two bytes a code takes. */
static unsigned places_of(const Code *code)
{
    switch (code->code) {
    case ALLOC_LARGE:
        return code->info ? 3 : 2;
    case SAVE_NONVOL:
    case SAVE_XMM128:
        return 2;
    case SAVE_NONVOL_FAR:
    case SAVE_XMM128_FAR:
        return 3;
    default:
        return 1;
    }
}

static void undo(KzContext *context, const Code *code, uint64_t base)
{
    uint32_t far = code->next[0] | (uint32_t)code->next[1] << 16;
    uint64_t *stack = &context->integers[KZ_RSP];
    switch (code->code) {
    case PUSH_NONVOL:
        context->integers[code->info] = pop(*stack);
        *stack += 8;
        break;
    case ALLOC_LARGE:
        *stack += code->info ? far : 8u * code->next[0];
        break;
    case ALLOC_SMALL:
        *stack += 8u * code->info + 8;
        break;
    case SET_FPREG:
        *stack = base;
        break;
    case SAVE_NONVOL:
    case SAVE_NONVOL_FAR:
        context->integers[code->info] = pop(base + (code->code == SAVE_NONVOL ? 8u * code->next[0] : far));
        break;
    case SAVE_XMM128:
    case SAVE_XMM128_FAR:
        memcpy(&context->xmm[code->info], (const void *)(uintptr_t)(base + (code->code == SAVE_XMM128 ? 16u * code->next[0] : far)), 16);
        break;
    }
}

/* One function's information, where the code stands so far behind its begin: past all of its prologue for UINT32_MAX. */
typedef struct {
    const KzImage *image;
    uint32_t at, into;
    Information head;
} Part;

static bool read_part(Part *part)
{
    return kz_copy(part->image->bytes, part->at, &part->head, sizeof part->head);
}

static bool read_code(const Part *part, unsigned at, Code *code)
{
    uint64_t place = (uint64_t)part->at + sizeof part->head + 2 * at;
    memset(code, 0, sizeof *code);
    return kz_copy(part->image->bytes, place, code, 2) && (places_of(code) == 1 || kz_copy(part->image->bytes, place + 2, code->next, 2 * (places_of(code) - 1)));
}

/* Where locals and saved registers are counted from: the frame's register, once the prologue has set it, else the stack's pointer. */
static uint64_t base_of(const Part *part, const KzContext *context)
{
    Code code;
    bool is_set = part->head.frame_register && part->into >= part->head.prolog;
    for (unsigned at = 0; part->head.frame_register && !is_set && at < part->head.count && read_code(part, at, &code); at += places_of(&code))
        is_set = code.code == SET_FPREG && code.at <= part->into;
    return is_set ? context->integers[part->head.frame_register] - 16u * part->head.frame_offset : context->integers[KZ_RSP];
}

static bool undo_part(const Part *part, KzContext *context, uint64_t base)
{
    Code code;
    for (unsigned at = 0; at < part->head.count; at += places_of(&code)) {
        if (!read_code(part, at, &code))
            return false;
        if (code.at <= part->into)
            undo(context, &code, base);
    }
    return true;
}

/* What stands behind the codes: a handler with its data, or the function that the part is chained to. */
static uint64_t behind(const Part *part)
{
    return (uint64_t)part->at + sizeof part->head + 2 * ((part->head.count + 1u) & ~1u);
}

static void take_handler(const Part *part, KzFrame *frame)
{
    uint32_t handler;
    if (!(part->head.flags & (HAS_HANDLER | HAS_TERMINATION)) || part->into < part->head.prolog || !kz_copy(part->image->bytes, behind(part), &handler, sizeof handler))
        return;
    frame->handler = (uintptr_t)part->image->bytes.start + handler;
    frame->data = kz_bytes_at(part->image->bytes, behind(part) + sizeof handler, 4);
    frame->is_exception = frame->data && part->head.flags & HAS_HANDLER;
    frame->is_termination = frame->data && part->head.flags & HAS_TERMINATION;
}

static bool undo_function(KzContext *context, KzFrame *frame)
{
    KzFunction chained = *frame->function;
    Part part = {frame->image, chained.unwind, (uint32_t)(context->rip - (uintptr_t)frame->image->bytes.start) - chained.begin, {0}};
    for (unsigned count = 0; count < MOST_CHAINED; count++) {
        if (!read_part(&part))
            return false;
        uint64_t base = base_of(&part, context);
        if (base - context->integers[KZ_RSP] >= FURTHEST) /* its register isn't known, or code without tables left it anyhow */
            return false;
        if (count == 0)
            frame->frame = base;
        take_handler(&part, frame);
        if (!undo_part(&part, context, base))
            return false;
        if (!(part.head.flags & IS_CHAINED))
            return true;
        if (!kz_copy(part.image->bytes, behind(&part), &chained, sizeof chained))
            return false;
        part.at = chained.unwind;
        part.into = UINT32_MAX;
    }
    return false;
}

/* A function without an entry changes nothing but the stack's top. */
bool kz_step_out(KzContext *context, KzFrame *frame)
{
    *frame = (KzFrame){.image = kz_image_at(context->rip), .frame = context->integers[KZ_RSP]};
    if (!frame->image)
        return false;
    frame->function = kz_function_at(frame->image, context->rip);
    if (frame->function && !undo_function(context, frame))
        return false;
    context->rip = pop(context->integers[KZ_RSP]);
    context->integers[KZ_RSP] += 8;
    return true;
}
