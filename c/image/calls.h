/* What a binary calls: a stub for each call of the kit. stubs.awk makes those that it can of the headers; the others stand in calls.c, texts.c, lists.c and raise.S. */
#ifndef KZ_IMAGE_CALLS_H
#define KZ_IMAGE_CALLS_H

#include "image/kit.h"
#include "core/client.h"

/* All stubs lie in one section: so it is known that a call came through one. */
#define KZ_STUB_AS(type, symbol, ...)                                                             \
    type KZ_MS_ABI __attribute__((noinline, used, section("kz_stubs"))) symbol(__VA_ARGS__); \
    type KZ_MS_ABI symbol(__VA_ARGS__)
#define KZ_STUB(type, name, ...) KZ_STUB_AS(type, kz_stub_##name, __VA_ARGS__)
/* Where its caller goes on, for what is told. */
#define KZ_FROM() (kz_stub_caller = kz_call_before(__builtin_return_address(0), __func__ + sizeof "kz_stub_" - 1), kz_look_at_stack(__builtin_frame_address(0)))
/* tail.c: the same where the driver jumped to it. */
const void *kz_call_by_jump(const void *behind, const char *stub);
static inline const void *kz_call_before(const void *behind, const char *stub)
{
    const uint8_t *at = behind;
    return kz_is_binary(behind) && at[-6] == 0xff && at[-5] == 0x15 ? behind : kz_call_by_jump(behind, stub);
}
/* A thread of the kernel's has a stack of 24 KB, of which code of the driver's alone, since it was called, may not have more. */
enum { KZ_STACK = 24 << 10 };
void kz_tell_stack(const void *frame);
static inline void kz_look_at_stack(const void *frame)
{
    if ((intptr_t)kz_me->stack - (intptr_t)frame > KZ_STACK)
        kz_tell_stack(frame);
}
extern const uint8_t __start_kz_stubs[], __stop_kz_stubs[];

typedef struct {
    const char *name;
    const void *at;
} KzExport;
/* kernel.c: where a call or a variable of the kit lies; NULL if it isn't here. The names of calls by their places; NULL behind the last one. */
const void *kz_find_export(const char *name);
const char *kz_export_at(size_t at);
/* known.c: whether Windows exports what isn't here, and the nearest name that it exports; NULL if none is near. */
bool kz_is_known(const char *name);
const char *kz_nearest_known(const char *name);
/* fault.c: what an instruction reads of the IRQL, or what it sets it to. */
uint64_t kz_move_irql(uint64_t level, bool is_read, const void *caller);
/* missing.c: a stub for what isn't here, that tells its name when it is called; NULL if there is no memory. */
const void *kz_missing_call(const char *name);

#endif
