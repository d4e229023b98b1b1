/* Memory that isn't everybody's. What can be paged out may not be touched at DISPATCH_LEVEL. A caller's own buffer may not be either, nor by another process, nor outside of a try block, unless an MDL
 * has its pages. What the manager hands out may not be written. In a plain program the pages of such memory are shut while a driver's code runs that may not touch them. Nothing is shut under the address sanitizer,
 * beyond the number of pieces that have pages of their own, and where several threads run for whom another one touched it first. */
#define _GNU_SOURCE
#include "core/access.h"

#include "core/client.h"
#include "core/held.h"
#include "core/module.h"
#include "core/place.h"
#include "core/source.h"
#include "core/state.h"
#include "core/told.h"

#include <stdlib.h>
#include <sys/mman.h>

enum { OPEN = PROT_READ | PROT_WRITE };

struct KzAccessState {
    KzPiece *first;
    bool is_high;      /* for whose code the pages are as they are */
    uint64_t process;
    bool is_any_shut;  /* to reads too */
    bool is_any_open;  /* to the host, though the driver whose call it is in may not touch it */
    bool is_any_let;   /* of a caller's, to code in a try block */
    enum { UNKNOWN, BY_VALGRIND, BY_NONE } run; /* by which the program is: for valgrind a shut page is an invalid read, and no signal */
    bool is_code_shut; /* functions of `#pragma alloc_text(PAGE, ..)` */
    /* In which callback a touch was told last, where, and of what: one copy touches much. */
    uint64_t told_in;
    const void *told_from;
    const uint8_t *told_of;
};

/* Drivers' functions that can be paged out lie in a section of their own, which has whole pages: c/adapt puts them there. It is empty where no driver has any. */
__asm__(".pushsection PAGE,\"ax\",@progbits\n.balign 4096\n.popsection");
extern char __start_PAGE[] __attribute__((weak)), __stop_PAGE[] __attribute__((weak));

static size_t code_size(void)
{
    return (uintptr_t)__stop_PAGE - (uintptr_t)__start_PAGE;
}

static bool is_paged_code(const void *address)
{
    return (uintptr_t)address - (uintptr_t)__start_PAGE < code_size();
}

static bool may_touch(const KzPiece *piece, bool is_high, uint64_t process, bool is_written)
{
    switch (piece->owner) {
    case KZ_PAGED:
        return !is_high;
    case KZ_CALLERS:
        return piece->locks > 0 || (!is_high && process == piece->process);
    case KZ_MANAGERS:
        return !is_written;
    default:
        return true;
    }
}

/* Of a binary only its compiler's tables say so, and clang's leave out what is no call: it counts as guarded. */
bool kz_is_in_try(void)
{
    const KzTry *innermost = kz_me->tries.innermost;
    const struct _FLT_FILTER *filter = kz_me->place.filter;
    return (innermost && innermost->callback == kz_me->place.number) || (filter && kz_is_binary((const void *)(uintptr_t)filter->driver->entry));
}

/* Its program may free it, or take rights away from it, while a driver touches it. */
static bool wants_try(const KzPiece *piece)
{
    return piece->owner == KZ_CALLERS && !piece->locks;
}

static bool is_by_valgrind(void)
{
    const char *preloaded = kz.access->run == UNKNOWN ? getenv("LD_PRELOAD") : NULL;
    if (kz.access->run == UNKNOWN)
        kz.access->run = preloaded && strstr(preloaded, "vgpreload") ? BY_VALGRIND : BY_NONE;
    return kz.access->run == BY_VALGRIND;
}

static void give_rights(KzPiece *piece, int rights)
{
    if (piece->pages && piece->rights != rights && mprotect(piece->pages, piece->pages_size, rights) == 0)
        piece->rights = rights;
}

void kz_own(void *memory, KzOwner owner, uint64_t process)
{
    KzPiece *piece = memory ? kz_piece_of(memory) : NULL;
    if (!piece)
        return;
    piece->process = process;
    kz.access->is_any_open = true;
    if (piece->owner == owner)
        return;
    piece->owner = owner;
    piece->rights = OPEN;
    piece->owned = kz.access->first;
    if (piece->owned)
        piece->owned->owned_before = piece;
    kz.access->first = piece;
}

void kz_disown(KzPiece *piece)
{
    if (piece->owner == KZ_EVERYBODYS)
        return;
    give_rights(piece, OPEN);
    *(piece->owned_before ? &piece->owned_before->owned : &kz.access->first) = piece->owned;
    if (piece->owned)
        piece->owned->owned_before = piece->owned_before;
    piece->owned = piece->owned_before = NULL;
    piece->owner = KZ_EVERYBODYS;
}

static bool lies_in(const void *address, const KzPiece *piece)
{
    return (uintptr_t)address - (uintptr_t)piece->body < piece->size;
}

void kz_map_pages(const void *address, bool is_locked)
{
    for (KzPiece *piece = kz.access->first; piece; piece = piece->owned)
        if (lies_in(address, piece)) {
            piece->locks += is_locked ? 1 : piece->locks ? -1 : 0;
            kz.access->is_any_open = true;
        }
}

void kz_open_owned(void *memory)
{
    KzPiece *piece = kz_piece_of(memory);
    if (piece && piece->owner != KZ_EVERYBODYS) {
        give_rights(piece, OPEN);
        kz.access->is_any_open = true;
    }
}

static void set_code(bool is_shut)
{
    if (is_shut != kz.access->is_code_shut && mprotect(__start_PAGE, code_size(), is_shut ? PROT_NONE : PROT_READ | PROT_EXEC) == 0)
        kz.access->is_code_shut = is_shut;
}

void kz_shut_owned(void)
{
    struct KzAccessState *all = kz.access;
    bool has_code = code_size() > 0 && kz_scheduler->has_pages;
    if (!all->first && !has_code)
        return;
    bool is_high = kz_irql() >= DISPATCH_LEVEL, is_new = is_high != all->is_high || kz_me->process != all->process;
    if (!is_new && !all->is_any_open)
        return;
    if (has_code && is_new)
        set_code(is_high);
    all->is_high = is_high;
    all->process = kz_me->process;
    all->is_any_open = false;
    for (KzPiece *piece = all->first; piece; piece = piece->owned) {
        bool is_callers = wants_try(piece) && !is_by_valgrind();
        bool reads = !is_callers && may_touch(piece, is_high, all->process, false), writes = !is_callers && may_touch(piece, is_high, all->process, true);
        piece->is_let &= !is_new;
        if (!piece->is_let)
            give_rights(piece, (reads ? PROT_READ : 0) | (writes ? PROT_WRITE : 0));
        all->is_any_shut |= !reads;
    }
}

static void take_back(void)
{
    kz.access->is_any_let = false;
    for (KzPiece *piece = kz.access->first; piece; piece = piece->owned)
        piece->is_let &= !wants_try(piece);
}

void kz_shut_callers(void)
{
    if (!kz.access || !kz.access->is_any_let)
        return;
    KZ_INSIDE_UNSAID();
    take_back();
    kz.access->is_any_open = true;
}

void kz_open_all_owned(void)
{
    struct KzAccessState *all = kz.access;
    if (all->is_any_let)
        take_back();
    if (!all->is_any_shut)
        return;
    all->is_any_shut = false;
    all->is_any_open = true;
    for (KzPiece *piece = all->first; piece; piece = piece->owned)
        if (piece->owner != KZ_MANAGERS)
            give_rights(piece, OPEN);
}

static KzPiece *owned_at(const void *address, KzOwner owner)
{
    KzPiece *piece = kz.access->first;
    while (piece && (piece->owner != owner || !lies_in(address, piece)))
        piece = piece->owned;
    return piece;
}

bool kz_is_paged(const void *address)
{
    return owned_at(address, KZ_PAGED) != NULL;
}

KzPiece *kz_callers_at(const void *address)
{
    return owned_at(address, KZ_CALLERS);
}

void kz_must_be_there(const void *object, const char *kind, const char *call)
{
    if (kz_is_paged(object))
        kz_tell_of(object, KZM_PAGED_OBJECT, call, "%s in memory that can be paged out", kind);
}

void kz_must_be_in_try(const char *call, const void *from, const char *why)
{
    if (kz_me->inside > 0 || kz_is_in_try())
        return;
    KZ_INSIDE_FROM(call, from);
    kz_uses_own();
    kz_tell(KZM_OUTSIDE_TRY, call, "called outside of a __try: it raises an exception if %s", why);
}

/* The call that is meant, and what is told of it. */
static const char *subject_of(const KzPiece *piece)
{
    if (piece->owner == KZ_PAGED)
        return piece->kind == KZK_CONTEXT ? "FLT_CONTEXT_REGISTRATION" : "PagedPool";
    if (piece->owner == KZ_MANAGERS)
        return "FLT_FILE_NAME_INFORMATION";
    return may_touch(piece, kz_irql() >= DISPATCH_LEVEL, kz_me->process, false) ? "__try" : "FltLockUserBuffer";
}

static void tell(const KzPiece *piece, bool is_written)
{
    const char *call = subject_of(piece), *how = is_written ? "written" : "read";
    char taken[40] = "";
    unsigned long long size = piece->size;
    if (piece->place.from)
        snprintf(taken, sizeof taken, ", taken at @%lx,", (unsigned long)kz_in_file(piece->place.from));
    if (piece->owner == KZ_PAGED)
        kz_tell(KZM_IRQL, call, "%llu bytes that can be paged out%s are %s at IRQL %u", size, taken, how, kz_irql());
    else if (piece->owner == KZ_MANAGERS)
        kz_tell(KZM_NOT_OWN_MEMORY, call, "%llu bytes of a name%s are written: they are the filter manager's, which gives them to each filter", size, taken);
    else if (may_touch(piece, kz_irql() >= DISPATCH_LEVEL, kz_me->process, is_written))
        kz_tell(KZM_OUTSIDE_TRY, call, "none stands around this: %llu bytes of a program's own memory are %s, which it may free meanwhile", size, how);
    else if (kz_irql() >= DISPATCH_LEVEL)
        kz_tell(KZM_IRQL, call, "never called for the caller's own buffer of %llu bytes, which is %s at IRQL %u", size, how, kz_irql());
    else
        kz_tell(KZM_OTHER_PROCESS, call, "never called for the caller's own buffer of %llu bytes, which is %s in process %llu: it is one of process %llu", size, how,
                (unsigned long long)kz_me->process, (unsigned long long)piece->process);
}

bool kz_is_in_drivers_place(void)
{
    return kz_me->place.from && kz_me->place.call && kz_me->place.is_in_drivers_place;
}

/* The driver's own code, or a copy that it called. */
const void *kz_drivers_code(const void *code, const void *caller)
{
    char line[100];
    if (kz_find_source(kz_in_file(code) + 1, line, sizeof line))
        return (const uint8_t *)code + 1;
    return caller && kz_find_source(kz_in_file(caller), line, sizeof line) ? caller : NULL;
}

static void tell_at(const KzPiece *piece, const void *from, bool is_written)
{
    struct KzAccessState *all = kz.access;
    KzPlace before = kz_me->place;
    if (from) {
        kz_me->place.call = subject_of(piece);
        kz_me->place.from = from;
    }
    if (all->told_in != before.number || (all->told_from != kz_me->place.from && all->told_of != piece->body))
        tell(piece, is_written);
    all->told_in = before.number;
    all->told_from = kz_me->place.from;
    all->told_of = piece->body;
    kz_me->place = before;
}

static void tell_code(const void *code)
{
    KzPlace before = kz_me->place;
    kz_me->place.call = "PAGE";
    kz_me->place.from = (const uint8_t *)code + 1;
    kz_tell(KZM_IRQL, "PAGE", "its code runs at IRQL %u, and the section can be paged out", kz_irql());
    kz_me->place = before;
}

/* What a driver may not do there. A program's own code is no driver's. */
static bool is_wrong(const KzPiece *piece, const void *from, bool is_written)
{
    return !may_touch(piece, kz_irql() >= DISPATCH_LEVEL, kz_me->process, is_written) || (wants_try(piece) && from && !kz_is_in_try());
}

static void look_at_touch(KzPiece *piece, const KzTouched *touch, bool is_inside)
{
    const void *from = is_inside ? NULL : kz_drivers_code(touch->code, touch->caller);
    if (touch->is_written && !lies_in(touch->address, piece))
        kz_tell_past(piece, (const uint8_t *)touch->address >= piece->body, true, from);
    else if (is_wrong(piece, is_inside ? kz_me->place.from : from, touch->is_written))
        tell_at(piece, from, touch->is_written);
}

bool kz_touched_owned(const KzTouched *touch)
{
    KZ_INSIDE_UNSAID();
    if (is_paged_code(touch->address)) {
        set_code(false);
        if (kz_irql() >= DISPATCH_LEVEL)
            tell_code(touch->code);
        return true;
    }
    KzPiece *piece = kz.access->first;
    while (piece && (!piece->pages || (uintptr_t)touch->address - (uintptr_t)piece->pages >= piece->pages_size))
        piece = piece->owned;
    if (!piece || piece->rights & (touch->is_written ? PROT_WRITE : PROT_READ))
        return piece != NULL; /* another thread has opened it since */
    bool is_hosts = kz_depth > 0 && !kz_is_in_drivers_place();
    if (!is_hosts)
        look_at_touch(piece, touch, kz_depth > 0);
    piece->is_let = !is_hosts;
    kz.access->is_any_let |= wants_try(piece);
    kz.access->is_any_open = true;
    give_rights(piece, OPEN);
    return true;
}

void kz_look_at_code(const void *code)
{
    if (!is_paged_code(code) || !kz.access || kz_irql() < DISPATCH_LEVEL || kz.access->told_in == kz_me->place.number)
        return;
    KZ_INSIDE_UNSAID();
    kz.access->told_in = kz_me->place.number;
    tell_code((const uint8_t *)code - 1);
}

void kz_look_at_owned(const void *address, size_t size, const void *from, bool is_written)
{
    if (!kz.access || !kz.access->first)
        return;
    for (KzPiece *piece = kz.access->first; piece; piece = piece->owned) {
        bool is_there = lies_in(address, piece) || lies_in(piece->body, &(KzPiece){.body = (uint8_t *)(uintptr_t)address, .size = size});
        if (!is_there || !is_wrong(piece, from, is_written))
            continue;
        KZ_INSIDE_UNSAID();
        tell_at(piece, from, is_written);
    }
}

const KzModule kz_access_module = {KZ_STATE(access)};
