/* Handles that drivers have of files and of other objects. */
#include "filesystem/handle.h"

#include "core/client.h"
#include "core/memory.h"
#include "core/module.h"
#include "core/place.h"
#include "core/told.h"

#include <stdlib.h>

typedef struct Handle {
    struct Handle *next;
    KzFile *file;
    PVOID object;     /* of a handle of no file */
    const char *what; /* it is */
    HANDLE handle;
    const char *call; /* that closes it; NULL: nobody needs to */
    uint64_t process; /* the program's whose handle it is; 0: it is the kernel's */
    KzPlace place;
} Handle;

struct KzHandleState {
    Handle *first;
    uintptr_t last; /* number */
};

static Handle **place_of(HANDLE handle)
{
    Handle **at = &kz.handle->first;
    while (*at && (*at)->handle != handle)
        at = &(*at)->next;
    return at;
}

KzFile *kz_own_file(HANDLE handle)
{
    Handle *one = *place_of(handle);
    return one ? one->file : NULL;
}

KzFile *kz_asked_file(HANDLE handle, const char *call)
{
    KzFile *file = kz_own_file(handle);
    kz_me->has_pended = false;
    if (!file)
        kz_tell(KZM_NO_HANDLE, call, "a handle that isn't open (closed twice?)");
    return file;
}

/* Its number is as handles of the kernel are: none of a program's. */
static Handle *new_handle(const char *call)
{
    Handle *made = kz_memory(sizeof *made);
    *made = (Handle){.next = kz.handle->first, .handle = (HANDLE)(0xffffffff80000000ULL + (kz.handle->last += 4)), .call = call, .place = kz_me->place};
    return kz.handle->first = made;
}

/* What a filter opens for the program that called it is the program's, which closes it by itself, or by its end. */
HANDLE kz_open_handle(PVOID object, const char *what, ULONG attributes)
{
    bool is_by_program = kz_me->place.callback == KZ_IN_PORT || kz_me->place.callback == KZ_IN_DISPATCH;
    bool is_of_kernel = (attributes & OBJ_KERNEL_HANDLE) || !is_by_program;
    Handle *made = new_handle(is_of_kernel ? "ZwClose" : NULL);
    made->process = is_of_kernel ? 0 : kz_me->process;
    made->object = object;
    made->what = what;
    return made->handle;
}

PVOID kz_object_of(HANDLE handle)
{
    Handle *one = *place_of(handle);
    return !one ? NULL : one->file ? &one->file->object : one->object;
}

HANDLE kz_file_handle(KzFile *file, const char *closed_by)
{
    Handle *made = new_handle(closed_by);
    made->file = file;
    return made->handle;
}

bool kz_drop_handle(HANDLE handle, KzFile **file)
{
    Handle **at = place_of(handle), *gone = *at;
    if (!gone)
        return false;
    const void *object = gone->object;
    *at = gone->next;
    *file = gone->file;
    free(gone);
    if (object)
        kz_object_let_go(object);
    return true;
}

bool kz_has_handle(const void *object)
{
    const Handle *one = kz.handle->first;
    while (one && one->object != object)
        one = one->next;
    return one != NULL;
}

HANDLE kz_handle_of_process(uint64_t process)
{
    const Handle *one = kz.handle->first;
    while (one && one->process != process)
        one = one->next;
    return one ? one->handle : NULL;
}

/* ---- The end of a filter, and of a run. */
static void tell_handles(PFLT_FILTER filter)
{
    for (Handle *one = kz.handle->first; one; one = one->next)
        if (one->place.filter == filter && one->call) {
            KzPlace before = kz_enter_again(&one->place);
            kz_tell(KZM_HANDLE_LEAK, one->call, "never called for a handle of %s%s", one->file ? "the file " : one->what, one->file ? one->file->path : "");
            kz_me->place = before;
            one->call = NULL;
        }
}

static void free_handles(void)
{
    while (kz.handle->first) {
        Handle *one = kz.handle->first;
        kz.handle->first = one->next;
        free(one);
    }
}

const KzModule kz_handle_module = {KZ_STATE(handle), .free = free_handles, .filter_ends = tell_handles};
