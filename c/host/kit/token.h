/* Tokens: a process's token is the process. */
#ifndef KZ_KIT_TOKEN_H
#define KZ_KIT_TOKEN_H

#include "host.h"

bool kz_is_sid(const char *text);
/* The user of a process from then on, whether it is elevated, and its integrity; 0: as such a user has it. */
void kz_set_user(uint64_t id, const char *sid, bool is_elevated, ULONG integrity);

#endif
