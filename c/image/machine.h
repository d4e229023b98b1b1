/* The processor, as code of Windows knows it: registers, exceptions, and what stands where it runs. */
#ifndef KZ_IMAGE_MACHINE_H
#define KZ_IMAGE_MACHINE_H

#include "image/image.h"

enum { KZ_RAX, KZ_RCX, KZ_RDX, KZ_RBX, KZ_RSP, KZ_RBP, KZ_RSI, KZ_RDI, KZ_R10 = 10, KZ_R11 };

/* CONTEXT of the kit. raise.S knows where its fields are. */
typedef struct {
    uint64_t homes[6];
    uint32_t flags, mxcsr;
    uint16_t segments[6];
    uint32_t eflags;
    uint64_t debug[6];
    uint64_t integers[16];
    uint64_t rip;
    uint8_t x87[0xa0];
    __uint128_t xmm[16];
    uint8_t vectors[0x230];
} __attribute__((aligned(16))) KzContext;
_Static_assert(sizeof(KzContext) == 0x4d0 && offsetof(KzContext, mxcsr) == 0x34 && offsetof(KzContext, eflags) == 0x44 && offsetof(KzContext, integers) == 0x78 &&
                   offsetof(KzContext, rip) == 0xf8 && offsetof(KzContext, xmm) == 0x1a0, "layout");

/* EXCEPTION_RECORD. */
typedef struct KzException {
    uint32_t code, flags;
    struct KzException *before;
    uint64_t address;
    uint32_t count;
    uint64_t information[15];
} KzException;
_Static_assert(sizeof(KzException) == 0x98 && offsetof(KzException, information) == 0x20, "layout");

/* processor.c: which of a signal's registers is one of KzContext. */
extern const int kz_registers[16];
/* raise.S: goes on with those registers. */
_Noreturn void kz_restore(const KzContext *context);
/* Where a signal's handler has its thread go on, and the calls that copy memory on behalf of a binary. */
extern const uint8_t kz_fault_entry[], kz_copies[], kz_copies_end[];

/* unwind.c: RUNTIME_FUNCTION. */
typedef struct {
    uint32_t begin, end, unwind;
} KzFunction;

/* A frame that was stepped out of: whose it is, and the handler of its function, if there is one that is to be asked. */
typedef struct {
    const KzImage *image;
    const KzFunction *function;
    uint64_t frame;
    uint64_t handler;
    const void *data;
    bool is_exception, is_termination;
} KzFrame;
const KzFunction *kz_function_at(const KzImage *image, uint64_t address);
/* False: the code is no binary's, or its tables are broken. */
bool kz_step_out(KzContext *context, KzFrame *frame);

/* callers.c: where the thread stands whose fault is looked at; and what the host asks for. */
extern _Thread_local const KzContext *kz_faulted;
void kz_watch_callers(void);

/* exception.c: goes on where a handler takes it; returns where none does. */
void kz_raise(KzException *exception, KzContext *context);

/* processor.c: what gs:[..] and the kernel's page of times are. */
void kz_enter_processor(void);
/* An instruction that touched that page is carried out with one of ours: the registers are those with which it does so. False if it can't be. */
bool kz_touch_times(KzContext *context, uint64_t address);
bool kz_end_touch(void *context);
extern const uint64_t kz_times;

#endif
