/* What the kit answers a driver's call: as one begins, the place to which it returns is another one, where the answer is looked at; then the driver goes on where it would have. So no call has to say what it
 * answers. That is for drivers of source, whose frames are known, and only if it is asked for. */
#include "core/result.h"

#include "core/client.h"
#include "core/frame.h"
#include "core/module.h"

static bool is_watched;

void kz_show_refusals(void)
{
    is_watched = true;
}

#ifdef __x86_64__
void kz_watch_answer(const void *frame, const char *call, const void *from)
{
    const void **returns = is_watched ? kz_return_to(frame, from) : NULL;
    if (!returns)
        return;
    kz_me->place.answered = call;
    kz_me->place.answered_to = from;
    *returns = kz_answered;
}

/* The call has returned, and the driver goes on there. */
const void *kz_look_at_answer(NTSTATUS status);
const void *kz_look_at_answer(NTSTATUS status)
{
    KzPlace before = kz_me->place;
    KZ_INSIDE_UNSAID();
    kz_me->place.call = before.answered;
    kz_me->place.from = before.answered_to;
    kz_call_answered(before.answered, status);
    kz_me->place = before;
    return before.answered_to;
}

/* What the call has returned is as it was. */
__asm__(".text\n"
        ".globl kz_answered\n"
        ".type kz_answered, @function\n"
        "kz_answered:\n"
        "    subq $8, %rsp\n    pushq %rbp\n    movq %rsp, %rbp\n    subq $32, %rsp\n"
        "    movq %rax, (%rsp)\n    movq %rdx, 8(%rsp)\n    movups %xmm0, 16(%rsp)\n"
        "    movl %eax, %edi\n    call kz_look_at_answer\n    movq %rax, 8(%rbp)\n"
        "    movq (%rsp), %rax\n    movq 8(%rsp), %rdx\n    movups 16(%rsp), %xmm0\n"
        "    leave\n    ret\n"
        ".size kz_answered, . - kz_answered\n");
#else
const char kz_answered[1];
void kz_watch_answer(const void *frame, const char *call, const void *from)
{
    (void)is_watched, (void)frame, (void)call, (void)from;
}
#endif
