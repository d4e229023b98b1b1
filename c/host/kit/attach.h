/* Instances that somebody asks for by name: a driver, or a program. */
#ifndef KZ_KIT_ATTACH_H
#define KZ_KIT_ATTACH_H

#include "host.h"

/* Without an altitude it gets that with which the filter was loaded, and without a name one of the filter's and the volume's. */
typedef struct {
    PFLT_FILTER filter;
    PFLT_VOLUME volume;
    const char *altitude, *name;
} KzAttaching;

NTSTATUS kz_attach_by_hand(const KzAttaching *asked, uint64_t *number);
/* An instance of the filter on the volume that isn't detached; by any name if that is empty. NULL if there is none. */
PFLT_INSTANCE kz_instance_named(PFLT_FILTER filter, PFLT_VOLUME volume, const char *name);

#endif
