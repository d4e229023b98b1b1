/* Exceptions in drivers whose source was compiled here. A client's try blocks are a chain, the innermost one first. As in the kit, each block's filter is asked before anything is left; then the finally
 * blocks of what is left are run, and then the handler. What is asked or run belongs to a function further up, and is called on top of who raises: it goes on at that function's jump, with the stack's
 * pointer below all that is there, and comes back by a jump. A block counts in the callback that it was entered in. */
#define _GNU_SOURCE
#include "core/raise.h"

#include "core/access.h"
#include "core/client.h"
#include "core/held.h"
#include "core/told.h"

#include <signal.h>
#include <stdlib.h>
#include <ucontext.h>

/* Why a function goes on at a block's end. */
enum { ENDED = 1, ASKED, LEFT, TAKEN };
enum { SLACK = 1024, ALIGNED = 64, STACK_POINTER = 2, NONCONTINUABLE = 1 };

/* One that is raised. */
struct KzRaise {
    EXCEPTION_RECORD record;
    EXCEPTION_POINTERS pointers;
    int answer;
    void *back[5];
};

/* The address sanitizer's, where it is there: frames are left without their ends. */
void __asan_handle_no_return(void) __attribute__((weak));

/* ---- To a block, and back. clang reads the buffer by a register that it has loaded from it, if that is a variable: it is a function's argument. */
_Noreturn __attribute__((noinline)) static void go_back(void **back)
{
    __builtin_longjmp(back, 1);
}

_Noreturn __attribute__((noinline)) static void call_block(const KzTry *block, int why, void **back)
{
    void *jump[5];
    memcpy(jump, block->jump, sizeof jump);
    jump[STACK_POINTER] = (void *)(((uintptr_t)__builtin_frame_address(0) - SLACK) & ~(uintptr_t)(ALIGNED - 1));
    kz_me->tries.why = why;
    kz_me->tries.back = back;
    go_back(jump);
}

__attribute__((noinline)) static int ask(struct KzRaise *raise, const KzTry *block)
{
    raise->answer = EXCEPTION_CONTINUE_SEARCH;
    if (!__builtin_setjmp(raise->back))
        call_block(block, ASKED, raise->back);
    return raise->answer;
}

/* Its finally block is run, if it has one. */
__attribute__((noinline)) static void leave_block(const KzTry *block, void **back)
{
    if (!__builtin_setjmp(back))
        call_block(block, LEFT, back);
}

/* ---- Raising. */
static bool counts(const KzTry *block)
{
    return block && block->callback == kz_me->place.number;
}

_Noreturn static void take(struct KzRaise *raise, KzTry *by)
{
    for (KzTry *block = kz_me->tries.innermost; block != by; block = block->outer) {
        kz_me->tries.innermost = block->outer;
        leave_block(block, raise->back);
    }
    kz_me->tries.innermost = by->outer;
    kz_me->tries.raise = by->raise;
    kz_me->tries.why = TAKEN;
    if (__asan_handle_no_return)
        __asan_handle_no_return();
    go_back(by->jump);
}

/* Comes back where nobody takes it, or where it is to be tried again: true. */
static bool is_tried_again(const EXCEPTION_RECORD *record)
{
    struct KzRaise raise = {.record = *record}, *outer = kz_me->tries.raise;
    int answer = EXCEPTION_CONTINUE_SEARCH;
    raise.pointers.ExceptionRecord = &raise.record;
    kz_me->tries.raise = &raise;
    for (KzTry *block = kz_me->tries.innermost; counts(block) && answer == EXCEPTION_CONTINUE_SEARCH; block = block->outer) {
        answer = ask(&raise, block);
        if (answer > 0)
            take(&raise, block);
        if (record->ExceptionFlags & NONCONTINUABLE)
            answer = EXCEPTION_CONTINUE_SEARCH;
    }
    kz_me->tries.raise = outer;
    return answer < 0;
}

void kz_raise_for(const char *call, NTSTATUS status, const void *from)
{
    is_tried_again(&(EXCEPTION_RECORD){.ExceptionCode = status, .ExceptionFlags = NONCONTINUABLE, .ExceptionAddress = (PVOID)(uintptr_t)from});
    KZ_INSIDE_FROM(call, from);
    kz_tell(KZM_BUG_CHECK, call, "exception 0x%08x, which nobody takes", (unsigned)status);
    abort();
}

/* ---- The blocks' begin and end, by the macros of ntdef.h. */
void KzEnterTry(KzTry *Try)
{
    Try->outer = kz_me->tries.innermost;
    Try->raise = kz_me->tries.raise;
    Try->callback = kz_me->place.number;
    kz_me->tries.innermost = Try;
}

void KzLeaveTry(KzTried *Tried)
{
    void *back[5];
    kz_me->tries.innermost = Tried->block->outer;
    kz_shut_callers();
    kz_me->tries.why = ENDED;
    if (!Tried->is_at_end)
        leave_block(Tried->block, back);
}

/* Where no block's end comes before it, it isn't due: its `if` took the block alone. */
static int taken_why(void)
{
    int why = kz_me->tries.why;
    kz_me->tries.why = 0;
    return why;
}

/* There is one for each handler of each function that is at work: what is left is gone. */
static void note(const void *frame, int block)
{
    KzHandled *all = kz_me->tries.handled;
    unsigned count = 0;
    for (unsigned at = 0; at < kz_me->tries.handled_count; at++)
        if (all[at].frame >= frame && (all[at].frame != frame || all[at].block != block))
            all[count++] = all[at];
    if (count == KZ_HANDLED)
        memmove(all, all + 1, --count * sizeof *all);
    all[count] = (KzHandled){frame, block, kz_me->tries.raise->record.ExceptionCode};
    kz_me->tries.handled_count = count + 1;
}

int KzIsAsked(const void *Frame, int Block)
{
    int why = taken_why();
    kz_me->tries.is_taken = why == TAKEN;
    if (why == LEFT)
        go_back(kz_me->tries.back);
    if (why == ASKED)
        note(Frame, Block);
    return why == ASKED;
}

int KzFiltered(int Filter)
{
    struct KzRaise *raise = kz_me->tries.raise;
    raise->answer = Filter;
    go_back(raise->back);
}

int KzIsTaken(void)
{
    return kz_me->tries.is_taken;
}

KzFinally KzBeginFinally(void)
{
    int why = taken_why();
    if (why == ASKED)
        go_back(kz_me->tries.back);
    return (KzFinally){why == ENDED || why == LEFT, why == LEFT, why == LEFT ? kz_me->tries.back : NULL};
}

void KzEndFinally(KzFinally *Finally)
{
    Finally->is_due = 0;
    if (Finally->back)
        go_back(Finally->back);
}

int KzExceptionCode(const void *Frame, int Block)
{
    unsigned at = kz_me->tries.handled_count;
    while (at > 0 && (kz_me->tries.handled[at - 1].frame != Frame || kz_me->tries.handled[at - 1].block != Block))
        at--;
    return at ? kz_me->tries.handled[at - 1].code : 0;
}

/* A filter alone may ask. */
PEXCEPTION_POINTERS KzExceptionInformation(const void *Frame, int Block)
{
    (void)Frame, (void)Block;
    return kz_me->tries.raise ? &kz_me->tries.raise->pointers : NULL;
}

/* ---- What the processor refuses the driver's own code, or a call of the kit over the driver's memory. The signal's handler has the thread go on here, on its own stack. */
#ifdef __x86_64__
enum { NEAR = 1 << 16, BACKWARDS_AND_TRAP = 0x500, PAGE_WRITE = 2 };

typedef struct KzFault {
    EXCEPTION_RECORD record;
    gregset_t registers;
    struct _libc_fpstate floats;
} Fault;
_Static_assert(sizeof(Fault) <= sizeof((KzClient *)0)->tries.fault, "room");

static EXCEPTION_RECORD record_of(int signal, const siginfo_t *information, const greg_t *registers)
{
    EXCEPTION_RECORD record = {.ExceptionAddress = (PVOID)registers[REG_RIP]};
    if (signal == SIGFPE) {
        record.ExceptionCode = STATUS_INTEGER_DIVIDE_BY_ZERO;
    } else if (signal == SIGILL) {
        record.ExceptionCode = STATUS_ILLEGAL_INSTRUCTION;
    } else {
        record.ExceptionCode = STATUS_ACCESS_VIOLATION;
        record.NumberParameters = 2;
        record.ExceptionInformation[0] = registers[REG_ERR] & PAGE_WRITE ? 1 : 0;
        record.ExceptionInformation[1] = information->si_code == SI_KERNEL ? ~(ULONG_PTR)0 : (uintptr_t)information->si_addr;
    }
    return record;
}

/* The processor goes on with these registers, by another signal. */
_Noreturn static void go_on(const Fault *fault)
{
    kz_me->tries.resumes = fault;
    __builtin_trap();
}

static bool is_resumed(ucontext_t *there)
{
    const Fault *fault = kz_me->tries.resumes;
    if (!fault)
        return false;
    kz_me->tries.resumes = NULL;
    memcpy(there->uc_mcontext.gregs, fault->registers, sizeof fault->registers);
    *there->uc_mcontext.fpregs = fault->floats;
    return true;
}

/* The call of the kit that it was in is over for the driver; where nobody takes it the processor refuses it again, and that is the crash. */
_Noreturn __attribute__((used)) static void raise_fault(void)
{
    Fault fault;
    KzPlace place = kz_me->place;
    unsigned depth = kz_me->inside;
    memcpy(&fault, kz_me->tries.fault, sizeof fault);
    if (depth > 0)
        kz_end_call(&(unsigned){0});
    if (!is_tried_again(&fault.record))
        kz_me->tries.given_up = fault.registers[REG_RIP];
    if (depth > 0) {
        kz_go_inside_unsaid();
        kz_me->place = place;
        kz_me->inside = depth;
    }
    go_on(&fault);
}

/* Below what the function has there without having moved the stack's pointer. */
extern const uint8_t kz_raise_below[] __attribute__((visibility("hidden")));
__asm__(".text\n"
        ".globl kz_raise_below\n"
        "kz_raise_below:\n"
        "    leaq -128(%rsp), %rsp\n    andq $-64, %rsp\n    pushq $0\n    jmp raise_fault\n");

static void leave_signal(ucontext_t *there, EXCEPTION_RECORD record)
{
    greg_t *registers = there->uc_mcontext.gregs;
    Fault *fault = (Fault *)kz_me->tries.fault;
    fault->record = record;
    memcpy(fault->registers, registers, sizeof fault->registers);
    fault->floats = *there->uc_mcontext.fpregs;
    registers[REG_RIP] = (greg_t)(uintptr_t)kz_raise_below;
    registers[REG_EFL] &= ~(greg_t)BACKWARDS_AND_TRAP;
}

/* No handler is asked where there is no stack left to go on with, nor of an address that isn't the user's: the system stops. */
static bool is_end(const siginfo_t *information, const greg_t *registers)
{
    uintptr_t address = (uintptr_t)information->si_addr;
    return address >= MM_USER_PROBE_ADDRESS || address - (uintptr_t)registers[REG_RSP] + NEAR < 2 * NEAR;
}

bool kz_takes_fault(int signal, const void *information, void *context)
{
    ucontext_t *there = context;
    const greg_t *registers = there->uc_mcontext.gregs;
    bool is_given_up = kz_me->tries.given_up == registers[REG_RIP];
    if (is_resumed(there))
        return true;
    kz_me->tries.given_up = 0;
    bool is_drivers = kz_me->inside == 0 || kz_is_in_drivers_place();
    if (signal == SIGABRT || is_given_up || !is_drivers || !counts(kz_me->tries.innermost) || kz_irql() >= DISPATCH_LEVEL || (signal != SIGFPE && is_end(information, registers)))
        return false;
    leave_signal(there, record_of(signal, information, registers));
    return true;
}
#else
bool kz_takes_fault(int signal, const void *information, void *context)
{
    (void)signal, (void)information, (void)context;
    return false;
}
#endif
