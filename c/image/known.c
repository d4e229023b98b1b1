/* Names that Windows' kernel exports and this kit hasn't (windows.txt, of mingw-w64's import libraries), and the nearest one to a name that nobody has. */
#include "image/calls.h"
#include "core/near.h"

#include <stdlib.h>

enum { NEAR = 4 };

static const char *const known[] = {
#define ROW(name) #name,
#include "windows.inc"
#undef ROW
};
enum { COUNT = sizeof known / sizeof known[0] };

static int compare(const void *name, const void *row)
{
    return strcmp(name, *(const char *const *)row);
}

bool kz_is_known(const char *name)
{
    return bsearch(name, known, COUNT, sizeof known[0], compare) != NULL;
}

const char *kz_nearest_known(const char *name)
{
    KzNear near = kz_near(name);
    const char *one;
    for (size_t at = 0; (one = at < COUNT ? known[at] : kz_export_at(at - COUNT)); at++)
        kz_try_near(&near, one);
    return near.best;
}
