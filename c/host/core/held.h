/* Locks that clients hold, and the IRQL at which they are. */
#ifndef KZ_CORE_HELD_H
#define KZ_CORE_HELD_H

#include "host.h"

KIRQL kz_irql(void);
/* Who waits for a lock that this client holds; NULL if nobody does. */
const char *kz_waits_for_mine(void);
/* Whether the client's thread can't be suspended by an APC: at APC_LEVEL, in a critical region, or with a lock by a call that enters one. */
bool kz_are_apcs_disabled(void);
/* Whether it is in a critical region or a guarded one, by itself or by a lock; or in a guarded one. */
bool kz_is_in_region(bool is_guarded);
/* It says that it waits next, and is at DISPATCH_LEVEL until it does. */
void kz_owe_wait(bool is_owed);
void kz_pay_wait(void);
/* What it holds alone it shares from now on; false if it doesn't. */
bool kz_share_lock(const void *lock);
/* Who holds it, the first of several; NULL if nobody does. */
const KzClient *kz_holder_of(const void *lock);
bool kz_is_taken(const void *lock);
void kz_tell_locks(void);
extern const struct KzModule kz_held_module;

#endif
