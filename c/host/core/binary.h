/* Drivers that were loaded as binaries of Windows (c/image): how their functions are called, and where the calls that they make go on. Without c/image there are none, and all of this is
 * empty. */
#ifndef KZ_CORE_BINARY_H
#define KZ_CORE_BINARY_H

#include "kzflt.h"

#include <stdbool.h>
#include <stdint.h>

#ifdef __x86_64__
#define KZ_MS_ABI __attribute__((ms_abi))
#else
#define KZ_MS_ABI
#endif

/* Calls a function of a driver by the convention that it was compiled for. Nobody wrote the stack below it. */
#define KZ_CALL_DRIVER(function, ...)                                                                                                                        \
    (kz_enters_binary((const void *)(uintptr_t)(function)) ? (kz_fill_here(), ((__typeof__(*(function)) KZ_MS_ABI *)(function))(__VA_ARGS__)) \
                                                           : (kz_fill_here(), (function)(__VA_ARGS__)))
/* Where the driver goes on behind the call that it makes: behind its own call, where a stub stands in between. */
#define KZ_CALLER() kz_caller(__builtin_return_address(0))

/* An access of a binary's code to memory, before it is carried out. */
enum {
    KZ_ACCESS_WRITES = 1,
    KZ_ACCESS_LOCKED = 2,
    KZ_ACCESS_IS_SINGLE = 4,            /* one move of an aligned place, as that of a volatile is */
    KZ_ACCESS_BEGINS = 8,               /* what it reads is changed, and written back */
    KZ_ACCESS_ENDS = 16,                /* by one of these, if the place is the same */
    KZ_ACCESS_CHANGES = 32              /* no access: the one before, which is locked, is about to change what it finds */
};
typedef struct {
    const void *address;
    size_t size;
    const void *from; /* in the instruction, or behind the call */
    unsigned how;
} KzAccess;
/* Whether the memory is one that others may have written meanwhile. */
typedef bool KzTellAccess(const KzAccess *access);

/* Set once by c/image, before the first request. */
typedef struct {
    uintptr_t start, size;       /* where all images lie */
    uintptr_t stubs, stubs_size; /* what they call; a driver may hand out the address of one */
    void (*open)(const KzDriver *driver); /* it is to be loaded: its image is laid out anew */
    void (*enter)(void);                  /* the thread is about to run code of one */
    void (*run)(void);                    /* code of a driver is about to go on, at an IRQL that may be another one */
    void (*entered)(const KzDriver *driver); /* its DriverEntry has succeeded */
    /* The processor refused an instruction: whether it was carried out in place of it, and whether the exception that it is goes on in a handler. */
    bool (*carry_out)(int signal, void *information, void *context);
    bool (*raise)(int signal, void *information, void *context);
    void (*note_callers)(const void *frame, const void *from); /* as kz_note_callers (core/frame.h), of the client's place */
    void (*note_callers_at)(const void *context);              /* the same where a signal came */
    bool (*find_line)(uintptr_t address, char *room, size_t size);
    const char *(*find_path)(uintptr_t address, unsigned *line);        /* of the source; NULL if it isn't known */
    bool (*find_variable)(uintptr_t address, char *room, size_t size); /* its name, and how far it is behind it */
    bool (*data)(unsigned at, char **start, char **end); /* where variables of theirs lie, one range after the other */
    const void *(*find_routine)(const char *name); /* as an import of that name; NULL if there is none */
    void (*put_back)(void);                              /* memory is as it was, so sections have to be there or not as they were */
    void (*watch)(KzTellAccess *to);                     /* each access of theirs is told from now on, but for those to their own frames */
} KzBinaries;
extern KzBinaries kz_binaries;

/* As core/unwritten.h has it; -1 for none. Who calls a driver has the fill below its own frame: what it keeps there itself would hide it. */
extern int kz_fill_byte;
static inline __attribute__((always_inline)) void kz_fill_here(void)
{
#ifdef __x86_64__
    if (kz_fill_byte >= 0)
        __asm__ volatile("lea -8192(%%rsp), %%rdi\n\tmov $8192, %%ecx\n\trep stosb" : : "a"(kz_fill_byte) : "rdi", "rcx", "memory", "cc");
#endif
}
extern _Thread_local const void *kz_stub_caller;

static inline bool kz_is_binary(const void *address)
{
    return (uintptr_t)address - kz_binaries.start < kz_binaries.size;
}

static inline bool kz_is_stub(const void *address)
{
    return (uintptr_t)address - kz_binaries.stubs < kz_binaries.stubs_size;
}

static inline bool kz_enters_binary(const void *function)
{
    bool is_one = kz_is_binary(function) || kz_is_stub(function);
    if (is_one && kz_binaries.enter)
        kz_binaries.enter();
    return is_one;
}

static inline const void *kz_caller(const void *address)
{
    return kz_is_stub(address) ? kz_stub_caller : address;
}

#endif
