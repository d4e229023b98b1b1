/* Routines by their names: FltGetRoutineAddress and MmGetSystemRoutineAddress, whose callers cope with none where a name isn't there. */
#include "core/client.h"
#include "core/told.h"

#include <stdlib.h>

typedef struct {
    const char *name;
    const void *at;
} Row;

/* Those that fltKernel.h declares, and the other ones, in the order of their names: lists that are made at build. Macros are none. */
#define ROW(name) {#name, (const void *)(uintptr_t)name},
#define VARIABLE(name) {#name, &name},
static const Row rows[] = {
#include "fltnames.inc"
};
static const Row kernel_rows[] = {
#include "ntnames.inc"
};

static int compare(const void *name, const void *row)
{
    return strcmp(name, ((const Row *)row)->name);
}

/* A binary calls by the convention of Windows: it gets what it would have imported. */
static PVOID find(const char *name, const Row *among, size_t count, const char *call)
{
    const Row *found = bsearch(name, among, count, sizeof among[0], compare);
    if (!found)
        kz_tell(KZM_NOT_MODELLED, call, "%s isn't found by its name: it answers NULL", name);
    bool is_binary = found && kz_is_binary(kz_me->place.from) && kz_binaries.find_routine;
    return (PVOID)(uintptr_t)(is_binary ? kz_binaries.find_routine(name) : found ? found->at : NULL);
}

PVOID FltGetRoutineAddress(PCSTR FltMgrRoutineName)
{
    KZ_INSIDE_ALONE();
    return find(FltMgrRoutineName, rows, sizeof rows / sizeof rows[0], __func__);
}

PVOID MmGetSystemRoutineAddress(PUNICODE_STRING SystemRoutineName)
{
    KZ_INSIDE_ALONE();
    char name[100];
    size_t length = SystemRoutineName->Length / sizeof(WCHAR);
    length = length < sizeof name ? length : sizeof name - 1;
    for (size_t at = 0; at < length; at++)
        name[at] = (char)SystemRoutineName->Buffer[at];
    name[length] = 0;
    return find(name, kernel_rows, sizeof kernel_rows / sizeof kernel_rows[0], __func__);
}
