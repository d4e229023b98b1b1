/* Extra create parameters, as lists have them. */
#ifndef KZ_CORE_EXTRA_H
#define KZ_CORE_EXTRA_H

#include "host.h"

typedef struct KzExtra {
    struct KzExtra *next;
    PECP_LIST list; /* in which it is */
    GUID type;
    ULONG size;
    PFSRTL_EXTRA_CREATE_PARAMETER_CLEANUP_CALLBACK cleanup;
    BOOLEAN is_acknowledged;
    PFLT_FILTER filter;
} KzExtra;

/* Its context lies behind it. */
enum { KZ_EXTRA_HEAD = (sizeof(KzExtra) + 15) / 16 * 16 };

struct _ECP_LIST {
    KzExtra *first;
};

KzExtra **kz_place_of_extra(PECP_LIST list, const GUID *type);
/* The context of that type, of at least that size; NULL: there is none in the list, or no list. */
const void *kz_extra_of(PECP_LIST list, const GUID *type, size_t size);

#endif
