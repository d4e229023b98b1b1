/* Calls of the kit that aren't here. Each gets a stub of its own, a few instructions that name it and go on to `tell`. */
#include "image/calls.h"
#include "core/told.h"
#include "core/client.h"

#include <sys/mman.h>

enum { ROOM = 1 << 16, STUB = 32 };

KZ_STUB(uint64_t, tell_missing, const char *name)
{
    KZ_FROM();
    KZ_INSIDE_OF(name);
    if (kz_is_known(name))
        kz_tell(KZM_NOT_MODELLED, name, "isn't in this kit: it answers STATUS_NOT_SUPPORTED");
    else
        kz_tell(KZM_NO_SUCH_ROUTINE, name, "is exported by no Windows that is known here: it answers STATUS_NOT_SUPPORTED");
    return (uint32_t)STATUS_NOT_SUPPORTED;
}

/* mov rcx, name; mov rax, tell_missing; jmp rax: the caller's return address stays on top of its stack. The name stands behind it. */
static void write_stub(uint8_t *at, const char *name)
{
    const void *to = (const void *)(uintptr_t)kz_stub_tell_missing, *text = at + STUB;
    memcpy(at, "\x48\xb9", 2);
    memcpy(at + 2, &text, 8);
    memcpy(at + 10, "\x48\xb8", 2);
    memcpy(at + 12, &to, 8);
    memcpy(at + 20, "\xff\xe0", 2);
    strcpy((char *)at + STUB, name);
}

const void *kz_missing_call(const char *name)
{
    static uint8_t *room;
    static size_t used = ROOM;
    size_t size = (STUB + strlen(name) + 16) & ~(size_t)15;
    if (used + size > ROOM) {
        room = mmap(NULL, ROOM, PROT_READ | PROT_WRITE, MAP_PRIVATE | MAP_ANONYMOUS, -1, 0);
        used = 0;
    }
    if (room == MAP_FAILED || size > ROOM || mprotect(room, ROOM, PROT_READ | PROT_WRITE) != 0)
        return NULL;
    write_stub(room + used, name);
    used += size;
    return mprotect(room, ROOM, PROT_READ | PROT_EXEC) == 0 ? room + used - size : NULL;
}
