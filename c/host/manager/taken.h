/* Which call took a reference to a context. */
#ifndef KZ_MANAGER_TAKEN_H
#define KZ_MANAGER_TAKEN_H

#include "host.h"
#include "core/place.h"

void kz_note_taken(const void *body);
void kz_forget_taken(const void *body);
/* The callback that runs, with the call that took the reference which it leaves. */
KzPlace kz_place_of_taken(const void *body);

#endif
