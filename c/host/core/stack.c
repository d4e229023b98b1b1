/* The kernel's stack: a thread has 24 KB of it. c/build.sh has the compiler compare a function's frame with a bound, as for stacks that are split: whose frame doesn't fit comes here before it is made, with
 * its size. What counts is the driver's own code since the host called it, without the frames of the host. Under a sanitizer, without optimization, and by a compiler that can't, nothing is compared. */
#include "core/stack.h"

#include "core/client.h"
#include "core/module.h"
#include "core/told.h"

#include <stdlib.h>

enum { BYTES = 24 << 10, CALLED = 16 }; /* what a call and its frame have put there */

typedef struct Room {
    struct Room *next;
} Room;

struct KzStackState {
    Room *first; /* memory in place of what was asked for behind the bound */
};

/* The word of the thread that the compiled comparison reads. */
static void bound(uintptr_t least)
{
#ifdef __x86_64__
    __asm__ volatile("movq %0, %%fs:0x70" : : "r"(least));
#else
    (void)least;
#endif
}

void kz_begin_stack(const void *frame)
{
    kz_me->place.stack = (const uint8_t *)frame + CALLED;
}

void kz_bound_stack(void)
{
    bound(kz_me->place.stack ? (uintptr_t)kz_me->place.stack - BYTES : 0);
}

void kz_free_stack(void)
{
    bound(0);
}

/* It is told once, and goes on. */
static void tell(uintptr_t least, const void *from)
{
    unsigned long long used = (uintptr_t)kz_me->place.stack - least;
    KZ_INSIDE_FROM("the stack", from);
    kz_tell(KZM_STACK, "the stack", "the driver's own code has %llu bytes of it with this function, and there are %d", used, BYTES);
    kz_me->place.stack = NULL;
}

/* The prologue of a driver's function: it would have so many bytes below its caller. */
void kz_enter_past_stack(const uint8_t *stack, size_t frame, const void *from);
void kz_enter_past_stack(const uint8_t *stack, size_t frame, const void *from)
{
    tell((uintptr_t)stack - frame, from);
}

/* It wants so much more of the stack in the middle of its code. */
void *__morestack_allocate_stack_space(size_t size);
void *__morestack_allocate_stack_space(size_t size)
{
    tell((uintptr_t)__builtin_frame_address(0) - size, __builtin_return_address(0));
    Room *room = malloc(sizeof *room + size);
    if (!room)
        abort();
    room->next = kz.stack->first;
    kz.stack->first = room;
    return room + 1;
}

static void free_rooms(void)
{
    while (kz.stack->first) {
        Room *room = kz.stack->first;
        kz.stack->first = room->next;
        free(room);
    }
}
const KzModule kz_stack_module = {KZ_STATE(stack), .free = free_rooms};

#ifdef __x86_64__
/* Called with the frame's size in r10, at a `ret` behind which the function begins. All that its caller has passed is as it was. */
__asm__(".text\n"
        ".globl __morestack\n"
        ".type __morestack, @function\n"
        "__morestack:\n"
        "    pushq %rbp\n    movq %rsp, %rbp\n    subq $200, %rsp\n"
        "    movq %rax, (%rsp)\n    movq %rdi, 8(%rsp)\n    movq %rsi, 16(%rsp)\n    movq %rdx, 24(%rsp)\n    movq %rcx, 32(%rsp)\n    movq %r8, 40(%rsp)\n    movq %r9, 48(%rsp)\n"
        "    movups %xmm0, 64(%rsp)\n    movups %xmm1, 80(%rsp)\n    movups %xmm2, 96(%rsp)\n    movups %xmm3, 112(%rsp)\n"
        "    movups %xmm4, 128(%rsp)\n    movups %xmm5, 144(%rsp)\n    movups %xmm6, 160(%rsp)\n    movups %xmm7, 176(%rsp)\n"
        "    leaq 16(%rbp), %rdi\n    movq %r10, %rsi\n    movq 8(%rbp), %rdx\n    call kz_enter_past_stack\n"
        "    movups 64(%rsp), %xmm0\n    movups 80(%rsp), %xmm1\n    movups 96(%rsp), %xmm2\n    movups 112(%rsp), %xmm3\n"
        "    movups 128(%rsp), %xmm4\n    movups 144(%rsp), %xmm5\n    movups 160(%rsp), %xmm6\n    movups 176(%rsp), %xmm7\n"
        "    movq (%rsp), %rax\n    movq 8(%rsp), %rdi\n    movq 16(%rsp), %rsi\n    movq 24(%rsp), %rdx\n    movq 32(%rsp), %rcx\n    movq 40(%rsp), %r8\n    movq 48(%rsp), %r9\n"
        "    leave\n    incq (%rsp)\n    ret\n"
        ".size __morestack, . - __morestack\n");
#endif
