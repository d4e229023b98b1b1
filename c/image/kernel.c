/* What the kernel and the filter manager export here, by name. */
#include "image/calls.h"

#include <stdlib.h>

/* ---- Calls, in the order of their names: a list that is made at build. */
#define ROW(name) extern const uint8_t kz_stub_##name[];
#include "names.inc"
#undef ROW
static const KzExport calls[] = {
#define ROW(name) {#name, kz_stub_##name},
#include "names.inc"
#undef ROW
};

/* ---- Variables of the kernel: an import of one is the variable's address. */
static const uint64_t cookie = 0x00002b992ddfa232;
static const ULONG build = 0xf0000000 | 19045;
static const KzExport variables[] = {
    {"IoFileObjectType", &IoFileObjectType}, {"PsProcessType", &PsProcessType}, {"PsThreadType", &PsThreadType}, {"ExEventObjectType", &ExEventObjectType},
    {"SeTokenObjectType", &SeTokenObjectType}, {"IoDriverObjectType", &IoDriverObjectType}, {"MmHighestUserAddress", &MmHighestUserAddress},
    {"MmUserProbeAddress", &MmUserProbeAddress}, {"SeExports", &SeExports}, {"PsInitialSystemProcess", &PsInitialSystemProcess}, {"NtBuildNumber", &build},
    {"__security_cookie", &cookie},
};

const char *kz_export_at(size_t at)
{
    return at < sizeof calls / sizeof calls[0] ? calls[at].name : NULL;
}

static int compare(const void *name, const void *row)
{
    return strcmp(name, ((const KzExport *)row)->name);
}

const void *kz_find_export(const char *name)
{
    const KzExport *found = bsearch(name, calls, sizeof calls / sizeof calls[0], sizeof calls[0], compare);
    if (found)
        return found->at;
    for (size_t at = 0; at < sizeof variables / sizeof variables[0]; at++)
        if (strcmp(variables[at].name, name) == 0)
            return variables[at].at;
    /* The kit's headers here have these as pointers, as a driver sees them; the kernel exports what they point to. */
    return strcmp(name, "KdDebuggerEnabled") == 0 ? KdDebuggerEnabled : strcmp(name, "KdDebuggerNotPresent") == 0 ? KdDebuggerNotPresent : NULL;
}
