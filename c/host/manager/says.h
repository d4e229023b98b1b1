/* What an operation answered, as a line of text beside its bytes: `says size 5 links 1`. */
#ifndef KZ_MANAGER_SAYS_H
#define KZ_MANAGER_SAYS_H

#include "host.h"

/* The text of an answer, into the client's room for it. */
void kz_say_answer(const KzOpaque *opaque, size_t length);

#endif
