/* Callbacks of handles of processes and threads: ObRegisterCallbacks. */
#ifndef KZ_KIT_HANDLEEVENT_H
#define KZ_KIT_HANDLEEVENT_H

#include "host.h"

/* A handle is about to be opened, or duplicated, with that access: what is granted of it. */
ACCESS_MASK kz_grant_handle(PVOID object, POBJECT_TYPE type, ACCESS_MASK asked, bool is_duplicate, bool is_of_kernel);

#endif
