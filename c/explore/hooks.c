/* The calls that the compiler puts before each access of the driver's code (-fsanitize=thread), and copies of memory by that code. Nothing of the compiler's own library is linked. */
#include "explore.h"
#include "core/access.h"

#define FROM __builtin_return_address(0)

/* The driver's code for which a hook itself reads or writes: what goes wrong there is of that line. */
const void *volatile ex_hooked;
#define FOR_DRIVER(access)                \
    __extension__({                       \
        ex_hooked = FROM;                 \
        __auto_type kz_answer = (access); \
        ex_hooked = NULL;                 \
        kz_answer;                        \
    })

void __tsan_init(void);
void __tsan_init(void)
{
}

void __tsan_func_entry(void *from);
void __tsan_func_entry(void *from)
{
    (void)from;
    kz_look_at_code(FROM);
}

void __tsan_func_exit(void);
void __tsan_func_exit(void)
{
}

void __tsan_vptr_update(void **at, void *to);
void __tsan_vptr_update(void **at, void *to)
{
    (void)to;
    ex_access(at, sizeof *at, true, false, FROM);
    ex_delay_write(at, sizeof *at, false, FROM);
}

void __tsan_vptr_read(void **at);
void __tsan_vptr_read(void **at)
{
    ex_access(at, sizeof *at, false, false, FROM);
}

/* Volatile accesses are in order with one another, as the kit's compiler has them. */
#define ACCESSES(size)                                     \
    void __tsan_read##size(void *at);                      \
    void __tsan_read##size(void *at)                       \
    {                                                      \
        ex_access(at, size, false, false, FROM);           \
    }                                                      \
    void __tsan_write##size(void *at);                     \
    void __tsan_write##size(void *at)                      \
    {                                                      \
        ex_access(at, size, true, false, FROM);            \
        ex_delay_write(at, size, false, FROM);             \
    }                                                      \
    void __tsan_unaligned_read##size(void *at);            \
    void __tsan_unaligned_read##size(void *at)             \
    {                                                      \
        ex_access(at, size, false, false, FROM);           \
    }                                                      \
    void __tsan_unaligned_write##size(void *at);           \
    void __tsan_unaligned_write##size(void *at)            \
    {                                                      \
        ex_access(at, size, true, false, FROM);            \
        ex_delay_write(at, size, false, FROM);             \
    }                                                      \
    void __tsan_volatile_read##size(void *at);             \
    void __tsan_volatile_read##size(void *at)              \
    {                                                      \
        ex_may_be_seen(at);                                \
        ex_access(at, size, false, true, FROM);            \
        ex_touch(at, 0, KZT_TAKES);                         \
    }                                                      \
    void __tsan_volatile_write##size(void *at);            \
    void __tsan_volatile_write##size(void *at)             \
    {                                                      \
        ex_access(at, size, true, true, FROM);             \
        ex_delay_write(at, size, true, FROM);              \
        ex_touch(at, 0, KZT_GIVES);                         \
        ex_note_change();                                     \
    }                                                      \
    void __tsan_unaligned_volatile_read##size(void *at);   \
    void __tsan_unaligned_volatile_read##size(void *at)    \
    {                                                      \
        ex_may_be_seen(at);                                \
        ex_access(at, size, false, true, FROM);            \
        ex_touch(at, 0, KZT_TAKES);                         \
    }                                                      \
    void __tsan_unaligned_volatile_write##size(void *at);  \
    void __tsan_unaligned_volatile_write##size(void *at)   \
    {                                                      \
        ex_access(at, size, true, true, FROM);             \
        ex_delay_write(at, size, true, FROM);              \
        ex_touch(at, 0, KZT_GIVES);                         \
        ex_note_change();                                     \
    }
ACCESSES(1)
ACCESSES(2)
ACCESSES(4)
ACCESSES(8)
ACCESSES(16)

void __tsan_read_range(void *at, long size);
void __tsan_read_range(void *at, long size)
{
    ex_access(at, (size_t)size, false, false, FROM);
}

void __tsan_write_range(void *at, long size);
void __tsan_write_range(void *at, long size)
{
    ex_access(at, (size_t)size, true, false, FROM);
    ex_see_writes();
}

/* ---- Interlocked calls. */
#define CHANGE(bits, name, builtin)                                                                           \
    uint##bits##_t __tsan_atomic##bits##_##name(volatile uint##bits##_t *at, uint##bits##_t by, int order);   \
    uint##bits##_t __tsan_atomic##bits##_##name(volatile uint##bits##_t *at, uint##bits##_t by, int order)    \
    {                                                                                                         \
        (void)order;                                                                                          \
        ex_access((const void *)at, bits / 8, true, true, FROM);                                              \
        ex_see_writes();                                                                                      \
        ex_in_order((const void *)at);                                                                        \
        uint##bits##_t before = FOR_DRIVER(builtin(at, by, __ATOMIC_SEQ_CST));                                \
        if (*at != before)                                                                                    \
            ex_note_change();                                                                                 \
        return before;                                                                                        \
    }
#define ATOMICS(bits)                                                                                                             \
    uint##bits##_t __tsan_atomic##bits##_load(const volatile uint##bits##_t *at, int order);                                      \
    uint##bits##_t __tsan_atomic##bits##_load(const volatile uint##bits##_t *at, int order)                                       \
    {                                                                                                                             \
        (void)order;                                                                                                              \
        ex_may_be_seen((const void *)at);                                                                                         \
        ex_access((const void *)at, bits / 8, false, true, FROM);                                                                 \
        ex_in_order((const void *)at);                                                                                            \
        return FOR_DRIVER(*at);                                                                                                   \
    }                                                                                                                             \
    void __tsan_atomic##bits##_store(volatile uint##bits##_t *at, uint##bits##_t to, int order);                                  \
    void __tsan_atomic##bits##_store(volatile uint##bits##_t *at, uint##bits##_t to, int order)                                   \
    {                                                                                                                             \
        ex_access((const void *)at, bits / 8, true, true, FROM);                                                                  \
        if (order == __ATOMIC_SEQ_CST)                                                                                            \
            ex_see_writes();                                                                                                      \
        else                                                                                                                      \
            ex_delay_write((void *)(uintptr_t)at, bits / 8, true, FROM);                                                          \
        ex_in_order((const void *)at);                                                                                            \
        FOR_DRIVER(*at = to);                                                                                                     \
        ex_note_change();                                                                                                         \
    }                                                                                                                             \
    CHANGE(bits, exchange, __atomic_exchange_n)                                                                                   \
    CHANGE(bits, fetch_add, __atomic_fetch_add)                                                                                   \
    CHANGE(bits, fetch_sub, __atomic_fetch_sub)                                                                                   \
    CHANGE(bits, fetch_and, __atomic_fetch_and)                                                                                   \
    CHANGE(bits, fetch_or, __atomic_fetch_or)                                                                                     \
    CHANGE(bits, fetch_xor, __atomic_fetch_xor)                                                                                   \
    CHANGE(bits, fetch_nand, __atomic_fetch_nand)                                                                                 \
    int __tsan_atomic##bits##_compare_exchange_strong(volatile uint##bits##_t *at, uint##bits##_t *from, uint##bits##_t to, int, int);      \
    int __tsan_atomic##bits##_compare_exchange_strong(volatile uint##bits##_t *at, uint##bits##_t *from, uint##bits##_t to, int order, int other) \
    {                                                                                                                             \
        (void)order, (void)other;                                                                                                 \
        ex_access((const void *)at, bits / 8, true, true, FROM);                                                                  \
        ex_see_writes();                                                                                                          \
        ex_in_order((const void *)at);                                                                                            \
        int is_done = FOR_DRIVER(__atomic_compare_exchange_n(at, from, to, 0, __ATOMIC_SEQ_CST, __ATOMIC_SEQ_CST));               \
        if (is_done && to != *from)                                                                                               \
            ex_note_change();                                                                                                     \
        return is_done;                                                                                                           \
    }                                                                                                                             \
    int __tsan_atomic##bits##_compare_exchange_weak(volatile uint##bits##_t *at, uint##bits##_t *from, uint##bits##_t to, int, int);        \
    int __tsan_atomic##bits##_compare_exchange_weak(volatile uint##bits##_t *at, uint##bits##_t *from, uint##bits##_t to, int order, int other)   \
    {                                                                                                                             \
        return __tsan_atomic##bits##_compare_exchange_strong(at, from, to, order, other);                                         \
    }                                                                                                                             \
    uint##bits##_t __tsan_atomic##bits##_compare_exchange_val(volatile uint##bits##_t *at, uint##bits##_t from, uint##bits##_t to, int, int);     \
    uint##bits##_t __tsan_atomic##bits##_compare_exchange_val(volatile uint##bits##_t *at, uint##bits##_t from, uint##bits##_t to, int order, int other) \
    {                                                                                                                             \
        __tsan_atomic##bits##_compare_exchange_strong(at, &from, to, order, other);                                               \
        return from;                                                                                                              \
    }
ATOMICS(8)
ATOMICS(16)
ATOMICS(32)
ATOMICS(64)

void __tsan_atomic_thread_fence(int order);
void __tsan_atomic_thread_fence(int order)
{
    if (order == __ATOMIC_SEQ_CST)
        ex_see_writes();
}

void __tsan_atomic_signal_fence(int order);
void __tsan_atomic_signal_fence(int order)
{
    (void)order;
}

/* ---- Copies. The script that builds a driver gives its calls these names. */
void *KzHookCopy(void *to, const void *from, size_t size);
void *KzHookCopy(void *to, const void *from, size_t size)
{
    ex_access(from, size, false, false, FROM);
    ex_access(to, size, true, false, FROM);
    ex_see_writes();
    return FOR_DRIVER(memcpy(to, from, size));
}

void *KzHookMove(void *to, const void *from, size_t size);
void *KzHookMove(void *to, const void *from, size_t size)
{
    ex_access(from, size, false, false, FROM);
    ex_access(to, size, true, false, FROM);
    ex_see_writes();
    return FOR_DRIVER(memmove(to, from, size));
}

void *KzHookFill(void *to, int byte, size_t size);
void *KzHookFill(void *to, int byte, size_t size)
{
    ex_access(to, size, true, false, FROM);
    ex_see_writes();
    return FOR_DRIVER(memset(to, byte, size));
}

int KzHookCompare(const void *a, const void *b, size_t size);
int KzHookCompare(const void *a, const void *b, size_t size)
{
    ex_access(a, size, false, false, FROM);
    ex_access(b, size, false, false, FROM);
    return FOR_DRIVER(memcmp(a, b, size));
}
