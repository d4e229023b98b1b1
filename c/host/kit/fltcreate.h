/* Files that a driver opens by itself. */
#ifndef KZ_KIT_FLTCREATE_H
#define KZ_KIT_FLTCREATE_H

#include "host.h"

void kz_close_handles_of(uint64_t process);
bool kz_close_handle(HANDLE handle);

#endif
