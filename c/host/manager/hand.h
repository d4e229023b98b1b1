/* What a callback holds as it returns. */
#ifndef KZ_MANAGER_HAND_H
#define KZ_MANAGER_HAND_H

#include "host.h"

bool kz_sends(KzOp *op, PVOID completion, KazdrinEvent *event);
void kz_keep_rest(const KazdrinEvent *sent);

#endif
