/* Whether anything of the drivers' leads to an object: their variables and all memory that they allocated are looked through for its address, word by word. What looks like one is taken as one. */
#include "core/pointer.h"

#include "core/access.h"

/* The variables of drivers whose source was compiled: c/build.sh has objcopy give their sections these names. The host's own aren't looked at: nobody else may read its stack for signals. */
extern char __start_kz_data[] __attribute__((weak)), __stop_kz_data[] __attribute__((weak));
extern char __start_kz_bss[] __attribute__((weak)), __stop_kz_bss[] __attribute__((weak));

/* A structure that lies on a stack with it may be this much larger. */
enum { AROUND = 1024, STACK = 1 << 16 };

typedef struct {
    uintptr_t start, size;
} Range;

/* Past the zones that the address sanitizer has between variables. */
__attribute__((no_sanitize("address"))) static bool leads(const void *start, const void *end, Range to)
{
    const uintptr_t *first = (const uintptr_t *)(((uintptr_t)start + sizeof *first - 1) & ~(sizeof *first - 1)), *last = end;
    for (; first + 1 <= last; first++)
        if (*first - to.start < to.size)
            return true;
    return false;
}

/* What it lies in: memory that was allocated, or this thread's stack; none if neither. */
static Range range_of(const void *object, const KzPiece **piece)
{
    uintptr_t at = (uintptr_t)object, here = (uintptr_t)__builtin_frame_address(0);
    for (*piece = kz_first_piece(); *piece; *piece = kz_next_piece(*piece))
        if (at - (uintptr_t)(*piece)->body < (*piece)->size)
            return (Range){(uintptr_t)(*piece)->body, (*piece)->size};
    return at - here < STACK ? (Range){at - AROUND, 2 * AROUND} : (Range){0, 0};
}

static bool leads_from_variables(Range to)
{
    char *start, *end;
    if (leads(__start_kz_data, __stop_kz_data, to) || leads(__start_kz_bss, __stop_kz_bss, to))
        return true;
    for (unsigned at = 0; kz_binaries.data && kz_binaries.data(at, &start, &end); at++)
        if (leads(start, end, to))
            return true;
    return false;
}

static bool lies_in(const void *address, const char *start, const char *end)
{
    return (uintptr_t)address - (uintptr_t)start < (uintptr_t)end - (uintptr_t)start;
}

static bool is_variable(const void *address)
{
    char *start, *end;
    bool is = lies_in(address, __start_kz_data, __stop_kz_data) || lies_in(address, __start_kz_bss, __stop_kz_bss);
    for (unsigned at = 0; !is && kz_binaries.data && kz_binaries.data(at, &start, &end); at++)
        is = lies_in(address, start, end);
    return is;
}

bool kz_is_drivers_memory(const void *address)
{
    if (is_variable(address))
        return true;
    const KzPiece *piece = kz_first_piece();
    while (piece && (uintptr_t)address - (uintptr_t)piece->body >= piece->size)
        piece = kz_next_piece(piece);
    return piece && (piece->kind == KZK_POOL || piece->kind == KZK_CONTEXT);
}

bool kz_is_pointed_to(const void *object)
{
    const KzPiece *own;
    Range to = range_of(object, &own);
    if (!to.size || (own && own->kind == KZK_CONTEXT)) /* others get a context from the manager */
        return true;
    kz_open_all_owned();
    if (leads_from_variables(to))
        return true;
    for (const KzPiece *piece = kz_first_piece(); piece; piece = kz_next_piece(piece))
        if (piece != own && leads(piece->body, piece->body + piece->size, to))
            return true;
    return false;
}
