/* What the compiler calls before each access of the kit's code over a driver's memory (c/host/lib), which the Makefile compiles once more as a driver is, under these names. */
#include "explore.h"

void KzLib_init(void);
void KzLib_init(void)
{
}

void KzLib_func_entry(const void *from);
void KzLib_func_entry(const void *from)
{
    ex_enter_lib(from);
}

void KzLib_func_exit(void);
void KzLib_func_exit(void)
{
    ex_leave_lib();
}

#define ACCESS(name, size, is_write)      \
    void KzLib_##name##size(void *at);    \
    void KzLib_##name##size(void *at)     \
    {                                     \
        ex_lib_access(at, size, is_write); \
    }
#define ACCESSES(size)                    \
    ACCESS(read, size, false)             \
    ACCESS(write, size, true)             \
    ACCESS(unaligned_read, size, false)   \
    ACCESS(unaligned_write, size, true)
ACCESSES(1)
ACCESSES(2)
ACCESSES(4)
ACCESSES(8)
ACCESSES(16)

void KzLib_read_range(void *at, long size);
void KzLib_read_range(void *at, long size)
{
    ex_lib_access(at, (size_t)size, false);
}

void KzLib_write_range(void *at, long size);
void KzLib_write_range(void *at, long size)
{
    ex_lib_access(at, (size_t)size, true);
}

/* ---- Copies. */
void *KzLibCopy(void *to, const void *from, size_t size);
void *KzLibCopy(void *to, const void *from, size_t size)
{
    ex_lib_access(from, size, false);
    ex_lib_access(to, size, true);
    return memcpy(to, from, size);
}

void *KzLibMove(void *to, const void *from, size_t size);
void *KzLibMove(void *to, const void *from, size_t size)
{
    ex_lib_access(from, size, false);
    ex_lib_access(to, size, true);
    return memmove(to, from, size);
}

void *KzLibFill(void *to, int byte, size_t size);
void *KzLibFill(void *to, int byte, size_t size)
{
    ex_lib_access(to, size, true);
    return memset(to, byte, size);
}

int KzLibCompare(const void *a, const void *b, size_t size);
int KzLibCompare(const void *a, const void *b, size_t size)
{
    ex_lib_access(a, size, false);
    ex_lib_access(b, size, false);
    return memcmp(a, b, size);
}

/* ---- Copies by the rest of the kit, which has memory of the host's as well. */
void *KzKitCopy(void *to, const void *from, size_t size);
void *KzKitCopy(void *to, const void *from, size_t size)
{
    ex_kit_access(from, size, false);
    ex_kit_access(to, size, true);
    return memcpy(to, from, size);
}

void *KzKitMove(void *to, const void *from, size_t size);
void *KzKitMove(void *to, const void *from, size_t size)
{
    ex_kit_access(from, size, false);
    ex_kit_access(to, size, true);
    return memmove(to, from, size);
}
