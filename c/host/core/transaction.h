/* A transaction, as the layers share it. */
#ifndef KZ_CORE_TRANSACTION_H
#define KZ_CORE_TRANSACTION_H

#include "host.h"

/* An instance that is enlisted: with which context, what it wants to hear of, and of which of these it owes an end. */
typedef struct KzMember {
    struct KzMember *next;
    PFLT_INSTANCE instance;
    struct KzContext *context;
    ULONG mask, owes;
} KzMember;

struct _KTRANSACTION {
    struct _KTRANSACTION *next;
    char name[32];   /* by which requests know it; empty of a program's */
    unsigned number; /* no other one of this run has it */
    enum { KZ_IS_ACTIVE, KZ_IS_COMMITTING, KZ_IS_ROLLING_BACK, KZ_IS_OVER } step;
    bool is_vetoed;
    TXN_PARAMETER_BLOCK block;
    KzMember *members;
    struct KzVersion *versions; /* of the files that it changes */
};

#endif
