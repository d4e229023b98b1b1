/* Structures of the kit in a driver's own memory that must be deleted before that goes: lookaside lists and resources. By their addresses. */
#include "core/made.h"

#include "core/client.h"
#include "core/memory.h"
#include "core/module.h"
#include "core/piece.h"
#include "core/place.h"
#include "core/told.h"

#include <stdlib.h>

typedef struct Made {
    struct Made *next;
    const void *at;
    const char *kind, *deletes; /* in words, and the call that deletes it */
    KzPlace place;
} Made;

struct KzMadeState {
    Made *first;
};

static Made **find(const void *at)
{
    Made **one = &kz.made->first;
    while (*one && (*one)->at != at)
        one = &(*one)->next;
    return one;
}

void kz_made(const void *at, const char *kind, const char *call, const char *deletes)
{
    Made **there = find(at);
    if (*there) {
        kz_tell_of(at, KZM_STILL_MADE, call, "%s that is initialized already, and wasn't deleted", kind);
        (*there)->place = kz_me->place;
        return;
    }
    Made *one = kz_memory(sizeof *one);
    *one = (Made){kz.made->first, at, kind, deletes, kz_me->place};
    kz.made->first = one;
}

bool kz_unmade(const void *at)
{
    Made **there = find(at), *one = *there;
    if (!one)
        return false;
    *there = one->next;
    free(one);
    return true;
}

bool kz_has_made(const void *at)
{
    KZ_INSIDE_UNSAID();
    return *find(at) != NULL;
}

bool kz_is_made(const void *at, const char *kind, const char *call)
{
    if (*find(at))
        return true;
    kz_tell_of(at, KZM_NEVER_MADE, call, kz_is_freed(at) ? "%s whose memory was freed" : "%s that was never initialized, or was deleted", kind);
    return false;
}

/* Memory is given back: what lies in it must have been deleted. */
static void check_made(const void *memory, size_t size)
{
    for (Made **at = &kz.made->first; *at;) {
        Made *one = *at;
        if ((uintptr_t)one->at < (uintptr_t)memory || (uintptr_t)one->at >= (uintptr_t)memory + size) {
            at = &one->next;
            continue;
        }
        kz_tell_of(one->at, KZM_STILL_MADE, one->deletes, "never called for %s, whose memory is freed", one->kind);
        *at = one->next;
        free(one);
    }
}

/* The filter ends, and with it its variables. */
static void tell_made(PFLT_FILTER filter)
{
    for (Made **at = &kz.made->first; *at;) {
        Made *one = *at;
        if (one->place.filter != filter) {
            at = &one->next;
            continue;
        }
        KzPlace before = kz_enter_again(&one->place);
        kz_tell_of(one->at, KZM_STILL_MADE, one->deletes, "never called for %s that was initialized here", one->kind);
        kz_me->place = before;
        *at = one->next;
        free(one);
    }
}

static void free_made(void)
{
    while (kz.made->first)
        kz_unmade(kz.made->first->at);
}

/* ---- Lists: the kit's own functions look at the neighbours, and stop the system where they aren't neighbours. */
VOID KzBrokenList(PLIST_ENTRY Entry, PCSTR Call)
{
    KZ_INSIDE_OF(Call);
    kz_tell_of(Entry, KZM_BROKEN_LIST, Call, "the list isn't whole there (an entry removed twice, or put in two lists?): it is left as it is");
}

const KzModule kz_made_module = {KZ_STATE(made), .free = free_made, .filter_ends = tell_made, .memory_goes = check_made};
