/* References to objects, which are counted: each object that was referenced has a line, with who took the last one. */
#include "manager/reference.h"

#include "core/client.h"
#include "core/memory.h"
#include "core/module.h"
#include "core/place.h"
#include "core/told.h"
#include "filesystem/fileobject.h"
#include "manager/below.h"

#include <stdlib.h>

typedef struct Taken {
    struct Taken *next;
    PVOID object;
    LONG_PTR count;
    bool is_flt;
    const char *call;
    KzPlace place;
} Taken;

struct KzReferenceState {
    Taken *first;
};

static Taken **find(PVOID object)
{
    Taken **at = &kz.reference->first;
    while (*at && (*at)->object != object)
        at = &(*at)->next;
    return at;
}

/* A file object stays as long as somebody references it, and its close waits. */
static void keep_file(PVOID object)
{
    KzFile *file = kz_file_with(object);
    if (file)
        file->users++;
}

static void let_go_of_file(PVOID object)
{
    KzFile *file = kz_file_with(object);
    if (!file)
        return;
    bool is_last = file->users == 1;
    kz_let_go_file(file);
    if (!is_last)
        kz_close_if_due(file);
}

LONG_PTR kz_take_object(PVOID object, bool is_flt, const char *call)
{
    Taken **at = find(object);
    kz_uses_object(object, *at ? KZU_ADDS : KZU_WRITES); /* whoever is the first has memory for that */
    if (!*at) {
        keep_file(object);
        Taken *made = kz_memory(sizeof *made);
        *made = (Taken){NULL, object, 0, is_flt, call, kz_me->place};
        *at = made;
    }
    (*at)->call = call;
    (*at)->place = kz_me->place;
    return ++(*at)->count;
}

LONG_PTR kz_let_go_object(PVOID object, const char *call)
{
    Taken **at = find(object);
    if (!*at) {
        kz_tell(KZM_OBJECT_RELEASED, call, "an object to which no reference was taken (dereferenced twice?)");
        return 0;
    }
    LONG_PTR left = --(*at)->count;
    if (!left) {
        Taken *gone = *at;
        *at = gone->next;
        free(gone);
        let_go_of_file(object);
        kz_object_let_go(object);
    }
    return left;
}

bool kz_is_referenced(const void *object)
{
    const Taken *one = kz.reference->first;
    while (one && one->object != object)
        one = one->next;
    return one != NULL;
}

static void tell_objects(void)
{
    for (Taken *one = kz.reference->first; one; one = one->next) {
        KzPlace before = kz_enter_again(&one->place);
        kz_tell(KZM_OBJECT_LEAK, one->is_flt ? "FltObjectDereference" : "ObDereferenceObject", "never called for an object that %s gave", one->call);
        kz_me->place = before;
    }
}

static void free_objects(void)
{
    while (kz.reference->first) {
        Taken *one = kz.reference->first;
        kz.reference->first = one->next;
        free(one);
    }
}

const KzModule kz_reference_module = {KZ_STATE(reference), .free = free_objects, .left = tell_objects};
