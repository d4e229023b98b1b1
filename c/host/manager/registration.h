/* Which contexts a filter registers. */
#ifndef KZ_MANAGER_REGISTRATION_H
#define KZ_MANAGER_REGISTRATION_H

#include "host.h"

/* Kinds of contexts that the host has numbers of: the manager's own go up to 3. */
enum { KZ_OF_SECTION = 4, KZ_OF_FILE, KZ_OF_TRANSACTION, KZ_OF_NOTHING };

NTSTATUS kz_registration_of_contexts(PFLT_FILTER filter, uint8_t *mask);
uint8_t kz_context_kind(FLT_CONTEXT_TYPE type);
const FLT_CONTEXT_REGISTRATION *kz_registered_context(PFLT_FILTER filter, FLT_CONTEXT_TYPE type, SIZE_T size);

#endif
