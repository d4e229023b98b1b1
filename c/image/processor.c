/* What compiled code of the kernel reads of the processor without a call: its block behind gs, and the kernel's page of times at a fixed address. */
#define _GNU_SOURCE
#include "image/calls.h"
#include "image/machine.h"

#include <asm/prctl.h>
#include <sys/mman.h>
#include <sys/syscall.h>
#include <ucontext.h>
#include <unistd.h>

/* ---- The block: of KPCR and KPRCB what the kit's headers reach by gs:[..]. */
enum { SELF = 0x18, PRCB = 0x20, CURRENT_THREAD = 0x188, BLOCK = 3 * KZ_PAGE };
static _Thread_local uint8_t *block;

static void put(unsigned at, const void *value)
{
    memcpy(block + at, &value, sizeof value);
}

void kz_enter_processor(void)
{
    if (!block) {
        block = mmap(NULL, BLOCK, PROT_READ | PROT_WRITE, MAP_PRIVATE | MAP_ANONYMOUS, -1, 0);
        put(SELF, block);
        put(PRCB, block + 0x180);
        syscall(SYS_arch_prctl, ARCH_SET_GS, block);
    }
    put(CURRENT_THREAD, PsGetCurrentThread());
    kz_me->stack = __builtin_frame_address(0);
}

/* ---- KUSER_SHARED_DATA. No process can have that page: the instruction is carried out with one of ours, by its base register, in a single step. */
const uint64_t kz_times = 0xfffff78000000000;
enum { INTERRUPT_TIME = 0x08, SYSTEM_TIME = 0x14, TICK_MULTIPLIER = 4, NT_MAJOR = 0x26c, NT_MINOR = 0x270, TICK_COUNT = 0x320 };
enum { TRAP_FLAG = 0x100, MOFFS_READ = 0xa1 };
static uint8_t page[KZ_PAGE] __attribute__((aligned(KZ_PAGE)));
const int kz_registers[16] = {REG_RAX, REG_RCX, REG_RDX, REG_RBX, REG_RSP, REG_RBP, REG_RSI, REG_RDI, REG_R8, REG_R9, REG_R10, REG_R11, REG_R12, REG_R13, REG_R14, REG_R15};
static _Thread_local struct {
    uint64_t at, before, between;
    int which;
    bool is_on;
} step;

/* KSYSTEM_TIME: a count, and its upper half once more. */
static void put_time(unsigned at, uint64_t time)
{
    memcpy(page + at, &time, sizeof time);
    memcpy(page + at + 8, (uint8_t *)&time + 4, 4);
}

static void fill_page(void)
{
    const uint32_t multiplier = 0x0fa00000, major = 10, minor = 0; /* 15.625 ms a tick */
    LARGE_INTEGER now;
    KeQuerySystemTime(&now);
    put_time(SYSTEM_TIME, (uint64_t)now.QuadPart);
    put_time(INTERRUPT_TIME, KeQueryInterruptTime());
    KeQueryTickCount(&now);
    put_time(TICK_COUNT, (uint64_t)now.QuadPart);
    memcpy(page + TICK_MULTIPLIER, &multiplier, sizeof multiplier);
    memcpy(page + NT_MAJOR, &major, sizeof major);
    memcpy(page + NT_MINOR, &minor, sizeof minor);
}

/* The register by which it reaches memory; -1 if there is none. */
static int base_of(const uint8_t *opcode, unsigned rex)
{
    const uint8_t *modrm = opcode + (opcode[0] == 0x0f ? 2 : 1);
    unsigned mode = modrm[0] >> 6, base = modrm[0] & 7;
    if (mode == 3 || (mode == 0 && base == 5))
        return -1;
    if (base == 4)
        base = modrm[1] & 7;
    return mode == 0 && base == 5 ? -1 : (int)(base | (rex & 1) << 3);
}

bool kz_touch_times(KzContext *context, uint64_t address)
{
    const uint8_t *start = (const uint8_t *)(uintptr_t)context->rip, *at = start;
    unsigned rex = 0;
    while (*at == 0x66 || *at == 0xf2 || *at == 0xf3)
        at++;
    if ((*at & 0xf0) == 0x40)
        rex = *at++;
    int base = base_of(at, rex);
    fill_page();
    if (at[0] == MOFFS_READ) { /* its address stands in the instruction */
        context->integers[KZ_RAX] = 0;
        memcpy(&context->integers[KZ_RAX], page + (address - kz_times), rex & 8 ? 8 : 4);
        context->rip += (uint64_t)(at - start) + 9;
        return true;
    }
    if (base < 0)
        return false;
    step.at = context->rip;
    step.which = base;
    step.before = context->integers[base];
    step.between = step.before - kz_times + (uintptr_t)page;
    step.is_on = true;
    context->integers[base] = step.between;
    context->eflags |= TRAP_FLAG;
    return true;
}

/* The first trap is before the instruction, the second one behind it: what it left in the register stays. */
bool kz_end_touch(void *context)
{
    greg_t *registers = ((ucontext_t *)context)->uc_mcontext.gregs;
    if (!step.is_on)
        return false;
    if ((uint64_t)registers[REG_RIP] == step.at)
        return true;
    if ((uint64_t)registers[kz_registers[step.which]] == step.between)
        registers[kz_registers[step.which]] = (greg_t)step.before;
    registers[REG_EFL] &= ~(greg_t)TRAP_FLAG;
    step.is_on = false;
    return true;
}
