/* Extra create parameters, as lists have them. */
#include "core/extra.h"

#include <string.h>

KzExtra **kz_place_of_extra(PECP_LIST list, const GUID *type)
{
    KzExtra **at = &list->first;
    while (*at && memcmp(&(*at)->type, type, sizeof *type) != 0)
        at = &(*at)->next;
    return at;
}

const void *kz_extra_of(PECP_LIST list, const GUID *type, size_t size)
{
    const KzExtra *one = list ? *kz_place_of_extra(list, type) : NULL;
    return one && one->size >= size ? (const char *)one + KZ_EXTRA_HEAD : NULL;
}
