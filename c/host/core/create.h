/* What a create asks for. */
#ifndef KZ_CORE_CREATE_H
#define KZ_CORE_CREATE_H

#include "host.h"

/* As its caller said it; the generic bits of its access are mapped. The upper byte of the options is the disposition, as in FLT_PARAMETERS. */
typedef struct {
    ACCESS_MASK access;
    ULONG options, attributes, share;
    ULONG beyond; /* options that there are none of */
    LONGLONG allocation;
    PVOID ea; /* a chain of extended attributes, which the file system checks */
    ULONG ea_length;
    bool ignores_sharing; /* and is ignored by others' */
    bool is_volume;       /* the volume itself, and no file on it */
    PKTRANSACTION transaction; /* NULL if in none */
    bool is_target;       /* the folder of the name that a rename is to give: the file object says which */
} KzCreate;

#endif
