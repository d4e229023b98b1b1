/* What the processor refuses a binary, since this is no kernel. Instructions of the kernel's are carried out in place of it; all else is an exception of the binary's. The signal's handler
 * keeps the registers on the thread's own stack and has the thread go on here: so calls of the host and handlers of the binary are called as from anywhere else. */
#define _GNU_SOURCE
#include "image/absent.h"
#include "image/calls.h"
#include "image/machine.h"
#include "image/point.h"
#include "image/slot.h"
#include "core/coverage.h"
#include "core/told.h"
#include "core/client.h"

#include <signal.h>
#include <stdlib.h>
#include <ucontext.h>

#define ACCESS_VIOLATION 0xc0000005u
#define ILLEGAL_INSTRUCTION 0xc000001du
#define DIVIDED_BY_ZERO 0xc0000094u
#define PRIVILEGED_INSTRUCTION 0xc0000096u
enum { NEAR = 1 << 20, BELOW = 256, PAGE_WRITE = 2, PAGE_RUN = 16, BACKWARDS_AND_TRAP = 0x500, FAST_FAIL = 0x139 };

/* What an instruction of the kernel's is. */
typedef enum { NONE, READS_CR8, WRITES_CR8, READS_DEBUG, WRITES_DEBUG, INTERRUPTS, FAILS_FAST, ASSERTS, ASKS_DEBUGGER, BREAKS, TOUCHES_TIMES, IS_POINT, IS_ABSENT, IS_PRIVILEGED } Kind;

typedef struct {
    KzContext context;
    Kind kind;
    bool is_copy, is_unplaced; /* is_unplaced: the processor doesn't say which address it is: one that isn't aligned as the instruction wants it, or that none can be */
    int signal;
    uint64_t address, error, stood; /* stood: where the instruction was, if it was moved */
} Fault;

static _Thread_local uint64_t given_up; /* nobody took an exception here: it is a crash */

/* ---- Instructions. */
typedef struct {
    const uint8_t *opcode;
    unsigned rex;
} Instruction;

static Instruction instruction_at(uint64_t rip)
{
    Instruction one = {(const uint8_t *)(uintptr_t)rip, 0};
    while (*one.opcode == 0xf0 || *one.opcode == 0x66)
        one.opcode++;
    if ((*one.opcode & 0xf0) == 0x40)
        one.rex = *one.opcode++;
    return one;
}

/* Other control registers, descriptor tables, model-specific registers, caches, ports, hlt. */
static bool is_privileged(const uint8_t *code)
{
    static const uint8_t alone[] = {0xe4, 0xe5, 0xe6, 0xe7, 0xec, 0xed, 0xee, 0xef, 0xf4}, behind[] = {0x00, 0x01, 0x06, 0x08, 0x09, 0x20, 0x22, 0x30, 0x32, 0x33};
    return code[0] == 0x0f ? memchr(behind, code[1], sizeof behind) != NULL : memchr(alone, code[0], sizeof alone) != NULL;
}

static Kind kind_of(int signal, uint64_t rip, uint64_t address)
{
    if (signal == SIGTRAP)
        return kz_is_point(rip - 1) ? IS_POINT : BREAKS;
    if (signal != SIGSEGV)
        return NONE;
    if (address >= kz_times && address - kz_times < KZ_PAGE)
        return TOUCHES_TIMES;
    Instruction one = instruction_at(rip);
    const uint8_t *code = one.opcode;
    bool is_cr8 = code[0] == 0x0f && ((code[2] >> 3 & 7) | (one.rex & 4) << 1) == 8;
    if (is_cr8 && (code[1] == 0x20 || code[1] == 0x22))
        return code[1] == 0x20 ? READS_CR8 : WRITES_CR8;
    if (code[0] == 0x0f && (code[1] == 0x21 || code[1] == 0x23))
        return code[1] == 0x21 ? READS_DEBUG : WRITES_DEBUG;
    if (code[0] == 0xfa || code[0] == 0xfb)
        return INTERRUPTS;
    if (code[0] == 0xcd)
        return code[1] == 0x29 ? FAILS_FAST : code[1] == 0x2c ? ASSERTS : code[1] == 0x2d ? ASKS_DEBUGGER : NONE;
    return is_privileged(code) ? IS_PRIVILEGED : NONE;
}

__attribute__((section("kz_stubs"), noinline)) uint64_t kz_move_irql(uint64_t level, bool is_read, const void *caller)
{
    kz_stub_caller = caller;
    if (is_read)
        return KeGetCurrentIrql();
    if ((KIRQL)level > KeGetCurrentIrql())
        KfRaiseIrql((KIRQL)level);
    else
        KeLowerIrql((KIRQL)level);
    return level;
}

/* The IRQL is in cr8. */
static void move_irql(KzContext *context, bool is_read)
{
    Instruction one = instruction_at(context->rip);
    uint64_t *integer = &context->integers[(one.opcode[2] & 7) | (one.rex & 1) << 3];
    context->rip = (uintptr_t)one.opcode + 3;
    *integer = kz_move_irql(*integer, is_read, (const void *)(uintptr_t)context->rip);
}

/* What was written last: no breakpoint comes of it. The others are as the processor begins with them. */
static void move_debug(KzContext *context, bool is_read)
{
    static _Thread_local uint64_t registers[8] = {[6] = 0xffff0ff0, [7] = 0x400};
    Instruction one = instruction_at(context->rip);
    uint64_t *integer = &context->integers[(one.opcode[2] & 7) | (one.rex & 1) << 3], *other = &registers[one.opcode[2] >> 3 & 7];
    context->rip = (uintptr_t)one.opcode + 3;
    if (is_read)
        *integer = *other;
    else
        *other = *integer;
}

/* It isn't refused there. What would come of it isn't known here: the driver's run ends. */
static void tell_privileged(uint64_t rip)
{
    KZ_INSIDE_FROM("the processor", kz_stub_caller);
    kz_tell(KZM_NOT_MODELLED, "the processor", "an instruction of the kernel's that isn't carried out here: the driver ends with it");
    given_up = rip;
}

/* NT_ASSERT: its expression isn't in the binary. */
static void tell_assertion(void)
{
    KZ_INSIDE_FROM("NT_ASSERT", kz_stub_caller);
    kz_tell(KZM_ASSERT, "NT_ASSERT", "an assertion doesn't hold");
}

/* Answers how far behind it the code goes on. Behind int 3 it stands already; behind int 2Dh a byte is passed over. */
__attribute__((section("kz_stubs"), noinline)) static unsigned tell_interrupt(Kind kind)
{
    switch (kind) {
    case INTERRUPTS:
        return 1;
    case ASSERTS:
        tell_assertion();
        return 2;
    case FAILS_FAST:
        KzBugCheck(FAST_FAIL);
        return 0;
    default:
        KzBreak();
        return kind == ASKS_DEBUGGER ? 3 : 0;
    }
}

/* Its calls of the host come from the stubs' section, as those of a binary do. */
__attribute__((section("kz_stubs"), noinline)) static bool carry_out(Fault *fault)
{
    KzContext *context = &fault->context;
    kz_stub_caller = (const void *)(uintptr_t)(context->rip + (fault->kind != BREAKS && fault->kind != IS_POINT));
    switch (fault->kind) {
    case READS_CR8:
    case WRITES_CR8:
        move_irql(context, fault->kind == READS_CR8);
        return true;
    case READS_DEBUG:
    case WRITES_DEBUG:
        move_debug(context, fault->kind == READS_DEBUG);
        return true;
    case TOUCHES_TIMES:
        context->rip = fault->stood;
        return kz_touch_times(context, fault->address);
    case IS_POINT:
        kz_pass_point(context);
        return true;
    case IS_ABSENT:
        kz_tell_absent(fault->address, context->rip);
        return true;
    case IS_PRIVILEGED:
        tell_privileged(context->rip);
        return true;
    case NONE:
        return false;
    default:
        context->rip += tell_interrupt(fault->kind);
        return true;
    }
}

/* ---- Exceptions. */
static KzException exception_of(const Fault *fault, const KzContext *context)
{
    KzException one = {.address = context->rip};
    bool is_page = fault->address || fault->error & (PAGE_WRITE | PAGE_RUN);
    if (fault->signal == SIGFPE)
        one.code = DIVIDED_BY_ZERO;
    else if (fault->signal == SIGILL)
        one.code = ILLEGAL_INSTRUCTION;
    else if (is_page || fault->error == 0 || fault->error == 4) {
        one.code = ACCESS_VIOLATION;
        one.count = 2;
        one.information[0] = fault->error & PAGE_RUN ? 8 : fault->error & PAGE_WRITE ? 1 : 0;
        one.information[1] = fault->is_unplaced ? UINT64_MAX : fault->address;
    } else
        one.code = PRIVILEGED_INSTRUCTION;
    return one;
}

/* The system stops: no handler of the driver's is asked. */
static void tell_constant(const Fault *fault, const KzContext *context)
{
    const KzImage *image = kz_image_at(fault->address);
    const KzSection *section = image ? kz_section_at(&image->headers, (uint32_t)(fault->address - (uintptr_t)image->bytes.start)) : NULL;
    if (fault->signal != SIGSEGV || !(fault->error & PAGE_WRITE) || !section || section->is_written)
        return;
    KZ_INSIDE_FROM(section->name, (const void *)(uintptr_t)(context->rip + 1));
    kz_tell(KZM_READ_ONLY, section->name, "it is written, and holds what can't be");
    abort();
}

void kz_tell_stack(const void *frame)
{
    const KzImage *image = kz_image_at((uintptr_t)kz_stub_caller);
    kz_me->stack = frame;
    if (image && image->expands_stack)
        return;
    KZ_INSIDE_FROM("the stack", kz_stub_caller);
    kz_tell(KZM_STACK, "the stack", "the driver's own code has more than %d KB of it", KZ_STACK >> 10);
}

/* From __chkstk: where the frame's end would be, and where the function goes on. */
void kz_look_at_probe(const void *frame, const void *from);
void kz_look_at_probe(const void *frame, const void *from)
{
    kz_stub_caller = from;
    kz_look_at_stack(frame);
}

/* A copy faulted on behalf of its caller: it counts as at that call. */
static void leave_copy(KzContext *context)
{
    context->integers[KZ_RSI] = context->integers[KZ_R10];
    context->integers[KZ_RDI] = context->integers[KZ_R11];
    memcpy(&context->rip, (const void *)(uintptr_t)context->integers[KZ_RSP], sizeof context->rip);
    context->rip--;
    context->integers[KZ_RSP] += 8;
}

_Noreturn static void go_on(const KzContext *context)
{
    kz_faulted = NULL;
    kz_restore(context);
}

_Noreturn void kz_fault(Fault *fault);
_Noreturn void kz_fault(Fault *fault)
{
    kz_faulted = fault->kind == IS_POINT ? NULL : &fault->context;
    if (fault->kind != NONE && carry_out(fault))
        go_on(&fault->context);
    KzContext context = fault->context;
    if (fault->is_copy)
        leave_copy(&context);
    kz_faulted = &context;
    tell_constant(fault, &context);
    kz_faulted = NULL;
    KzException exception = exception_of(fault, &context);
    kz_stub_caller = (const void *)(uintptr_t)context.rip;
    kz_raise(&exception, &context);
    given_up = fault->context.rip;
    kz_stub_caller = (const void *)(uintptr_t)context.rip;
    go_on(&fault->context); /* it is refused again, and that is the crash */
}

/* ---- Signals. */
static void leave_signal(ucontext_t *there, Fault with)
{
    greg_t *registers = there->uc_mcontext.gregs;
    Fault *fault = (Fault *)(((uintptr_t)registers[REG_RSP] - BELOW - sizeof *fault) & ~(uintptr_t)63);
    *fault = with;
    for (unsigned one = 0; one < 16; one++)
        fault->context.integers[one] = (uint64_t)registers[kz_registers[one]];
    fault->context.rip = (uint64_t)registers[REG_RIP];
    fault->context.eflags = (uint32_t)registers[REG_EFL];
    fault->context.mxcsr = there->uc_mcontext.fpregs->mxcsr;
    memcpy(fault->context.xmm, there->uc_mcontext.fpregs->_xmm, sizeof fault->context.xmm);
    registers[REG_RDI] = registers[REG_RSP] = (greg_t)(uintptr_t)fault;
    registers[REG_RIP] = (greg_t)(uintptr_t)kz_fault_entry;
    registers[REG_EFL] &= ~(greg_t)BACKWARDS_AND_TRAP;
}

static Fault fault_of(int signal, const siginfo_t *information, const ucontext_t *there)
{
    const greg_t *registers = there->uc_mcontext.gregs;
    return (Fault){.signal = signal, .address = (uintptr_t)information->si_addr, .error = (uint64_t)registers[REG_ERR], .is_unplaced = signal == SIGSEGV && information->si_code == SI_KERNEL, .stood = (uint64_t)registers[REG_RIP]};
}

/* Where the thread stands: an instruction that was moved stands where it was linked for. */
static uint64_t place_of(ucontext_t *there)
{
    greg_t *rip = &there->uc_mcontext.gregs[REG_RIP];
    *rip = (greg_t)kz_moved_from((uint64_t)*rip);
    return (uint64_t)*rip;
}

/* What wasn't there when it was touched: the thread goes on. */
static bool is_absent(Fault *fault, ucontext_t *there, uint64_t rip)
{
    if (fault->signal != SIGSEGV || !kz_is_absent(fault->address))
        return fault->signal == SIGSEGV && kz_is_back(fault->address, fault->error & PAGE_WRITE, fault->error & PAGE_RUN);
    if (!kz_image_at(rip)) { /* the host itself touches it */
        kz_open_absent(fault->address);
        return true;
    }
    fault->kind = IS_ABSENT;
    leave_signal(there, *fault);
    return true;
}

static bool carry_out_in_place(int signal, void *information, void *context)
{
    if (signal == SIGTRAP && (kz_end_touch(context) || kz_pass_mark(context)))
        return true;
    Fault fault = fault_of(signal, information, context);
    uint64_t rip = place_of(context);
    if (is_absent(&fault, context, rip))
        return true;
    if (!kz_image_at(rip - (signal == SIGTRAP)))
        return false;
    /* An address outside of code can't be read for its instruction. */
    const KzImage *image = kz_image_at(rip);
    const KzSection *section = image ? kz_section_at(&image->headers, (uint32_t)(rip - (uintptr_t)image->bytes.start)) : NULL;
    fault.kind = section && section->is_run && given_up != rip ? kind_of(signal, rip, fault.address) : NONE;
    if (fault.kind == NONE)
        return false;
    leave_signal(context, fault);
    return true;
}

/* There is no stack left to go on with: that is the end, as an address is that nobody has and that isn't the user's. */
static bool is_past_stack(const Fault *fault, const ucontext_t *there)
{
    return fault->signal == SIGSEGV && fault->address - ((uint64_t)there->uc_mcontext.gregs[REG_RSP] - NEAR) < 2 * NEAR;
}

static bool raise_in_place(int signal, void *information, void *context)
{
    Fault fault = fault_of(signal, information, context);
    uint64_t rip = place_of(context);
    fault.is_copy = rip - (uintptr_t)kz_copies < (uintptr_t)(kz_copies_end - kz_copies);
    bool is_known = given_up == rip, is_end = is_past_stack(&fault, context) || fault.address >= MmUserProbeAddress;
    given_up = 0;
    if (is_end || is_known || signal == SIGABRT || !(fault.is_copy || kz_image_at(rip)))
        return false;
    leave_signal(context, fault);
    return true;
}

static void on_trap(int signal, siginfo_t *information, void *context)
{
    if (carry_out_in_place(signal, information, context))
        return;
    sigaction(signal, &(struct sigaction){.sa_handler = SIG_DFL}, NULL);
    raise(signal);
}

void kz_watch_faults(void)
{
    kz_binaries.enter = kz_enter_processor;
    kz_binaries.carry_out = carry_out_in_place;
    kz_binaries.raise = raise_in_place;
    kz_watch_callers();
    kz_binaries.find_line = kz_find_image_line;
    kz_binaries.find_path = kz_find_image_path;
    kz_binaries.find_variable = kz_find_image_variable;
    sigaction(SIGTRAP, &(struct sigaction){.sa_sigaction = on_trap, .sa_flags = SA_SIGINFO | SA_ONSTACK}, NULL);
}
